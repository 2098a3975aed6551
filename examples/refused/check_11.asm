CoreASM Reset
init Main
function controlled x initially 1
rule Main = Reset(x)
rule Reset(l) = l := 0
