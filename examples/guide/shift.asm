CoreASM Shift
init Shift
enum Side = { left, right }
universe Cell = 1 .. 3
function controlled mark : Cell * Side initially { (1, left) -> 1, (2, left) -> 2, (3, right) -> 3 }
rule Shift = forall s in Side do
  forall c in Cell with mark(c, s) != undef do Move(c, s) endforall
endforall
rule Move(c, s) = if s = left then mark(c - 1, s) := mark(c, s) else mark(c + 1, s) := mark(c, s) endif
