CoreASM ByName
init Main
function controlled x initially 1
rule Main = Twice(x + 1)
rule Twice(t) = seq x := t x := t endseq
