CoreASM AnswerLocal
init Main
function controlled x initially 10
function controlled half
rule Main = x <- Shrink
rule Shrink = seq
  half <- Half(result)
  result := result - half
endseq
rule Half(n) = result := n div 2
