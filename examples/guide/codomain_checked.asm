CoreASM CodomainChecked
init Walk
universe Cell = 1 .. 3
function static prize : Cell -> NUMBER initially { (1) -> 10, (2) -> 20, (3) -> 30 }
function controlled cell : -> Cell initially 2
function controlled won : -> NUMBER initially 0
function controlled broken
derived isCell = (exists c in Cell with c = cell)
rule Walk = par
  if prize(cell) != undef then won := won + prize(cell) endif
  cell := cell + 1
  if not isCell then par broken := 1 broken := 2 endpar endif
endpar
