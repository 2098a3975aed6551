CoreASM Answer
init Main
universe Side = 1 .. 3
function controlled area : Side
rule Main = forall s in Side do area(s) <- Square(s) endforall
rule Square(n) = result := n * n
