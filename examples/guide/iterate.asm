CoreASM Iterate
init Halve
function controlled n initially 40
function controlled halvings initially 0
rule Halve = iterate
  if n mod 2 = 0 then par
    n := n div 2
    halvings := halvings + 1
  endpar endif
enditerate
