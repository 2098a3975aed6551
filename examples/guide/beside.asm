CoreASM Beside
init Work
function controlled x initially 1
function controlled y
function controlled z
rule Work = par
  seq x := 7 y := x endseq
  z := x
endpar
