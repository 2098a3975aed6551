CoreASM Counter
function controlled x initially 0
rule Main = x := x + 1
