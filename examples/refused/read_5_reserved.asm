CoreASM Sum
init Main
function controlled result initially 0
rule Main = result := result + 1
