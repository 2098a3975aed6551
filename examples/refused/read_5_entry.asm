CoreASM Prices
init Main
universe Shelf = 1 .. 2
function static price : Shelf initially { 1 -> 30, 2 -> 40 }
rule Main = skip
