CoreASM Prices
init Main
universe Shelf = 1 .. 2
function static price : Shelf initially { (1) -> 30, (2) -> 40, (3) -> 50 }
rule Main = skip
