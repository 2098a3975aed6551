CoreASM Truth
init Main
universe Line = 1 .. 7
function controlled value : Line
rule Main = par
  value(1) := true and not false
  value(2) := false or 1 < 2
  value(3) := not 1 = 2
  value(4) := true or true and false
  value(5) := false and undef
  value(6) := true or undef
  value(7) := not 0
endpar
