CoreASM Counter
init Main
function controlled count initially 0
rule Main = count := cuont + 1
