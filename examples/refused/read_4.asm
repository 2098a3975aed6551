CoreASM Names
init Main
function controlled 2nd initially 0
rule Main = 2nd := 1
