CoreASM Rotate
init Rotate
function controlled a initially 1
function controlled b initially 2
function controlled c initially 3
rule Rotate = par
  a := b
  b := c
  c := a
endpar
