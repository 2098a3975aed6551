CoreASM AnswerOnce
init Main
universe Slot = 0 .. 2
function controlled next initially 0
function controlled slot : Slot
rule Main = slot(next) <- Take(next * 10)
rule Take(n) = seq
  next := next + 1
  result := n
endseq
