CoreASM Factorial
init Main
function controlled x
derived factorial(n) = n * factorial(n - 1)
rule Main = x := factorial(5)
