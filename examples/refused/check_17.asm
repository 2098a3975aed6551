CoreASM Area
init Main
function controlled area
rule Main = Square(3)
rule Square(n) = result := n * n
