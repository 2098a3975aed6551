CoreASM Compare
init Main
enum Suit = { hearts, spades }
universe Line = 1 .. 8
function controlled value : Line
rule Main = par
  value(1) := 1 < 2
  value(2) := 2 <= 1
  value(3) := 2 > 1
  value(4) := 1 >= 2
  value(5) := 1 = true
  value(6) := hearts != spades
  value(7) := hearts < spades
  value(8) := (1 < 2) = true
endpar
