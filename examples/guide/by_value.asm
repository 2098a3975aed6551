CoreASM ByValue
init Main
function controlled x initially 1
rule Main = let v = x + 1 in Twice(v) endlet
rule Twice(t) = seq x := t x := t endseq
