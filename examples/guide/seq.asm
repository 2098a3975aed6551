CoreASM Seq
init Work
function controlled x initially 1
function controlled y initially 0
rule Work = seq
  par x := 7 y := 0 endpar
  y := x + 1
endseq
