CoreASM Undefined
init Main
universe Line = 1 .. 6
function controlled x
function controlled y initially 1
function controlled value : Line initially 0
rule Main = par
  value(1) := x
  value(2) := x + y
  value(3) := x < y
  value(4) := x = undef
  value(5) := value(7)
  value(6) := (x < y) = undef
endpar
