CoreASM Price
init Main
function controlled price initially 3.5
rule Main = skip
