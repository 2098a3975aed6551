CoreASM Least
init Lend
enum Book = { atlas, bestiary, cookbook }
function controlled lent : Book -> NUMBER initially {
  (atlas) -> 4, (bestiary) -> 2, (cookbook) -> 2 }
derived isLeast(b) = (forall c in Book holds lent(b) <= lent(c))
rule Lend = choose b in Book with isLeast(b) do lent(b) := lent(b) + 1 endchoose
