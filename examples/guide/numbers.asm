CoreASM Numbers
init Main
universe Line = 1 .. 10
function controlled value : Line
rule Main = par
  value(1) := 2 + 3 * 4 - 5
  value(2) := (2 + 3) * 4
  value(3) := -(2 + 3)
  value(4) := 7 div 2
  value(5) := 7 mod 2
  value(6) := -7 div 2
  value(7) := -7 mod 2
  value(8) := 7 div -2
  value(9) := 7 mod 0
  value(10) := 100000000000000000 + 1
endpar
