CoreASM SeqClash
init Work
function controlled x initially 0
rule Work = seq
  par x := 1 x := 2 endpar
  x := 3
endseq
