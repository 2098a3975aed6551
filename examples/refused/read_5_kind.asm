CoreASM Counter
init Main
function count initially 0
rule Main = count := count + 1
