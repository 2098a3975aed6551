CoreASM Codomain
init Walk
universe Cell = 1 .. 3
function static prize : Cell -> NUMBER initially { (1) -> 10, (2) -> 20, (3) -> 30 }
function controlled cell : -> Cell initially 2
function controlled won : -> NUMBER initially 0
rule Walk = par
  if prize(cell) != undef then won := won + prize(cell) endif
  cell := cell + 1
endpar
