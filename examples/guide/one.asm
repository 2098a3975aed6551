CoreASM One
init Pass
universe Node = 0 .. 2
function controlled hasToken : Node -> BOOLEAN initially { (0) -> true, (1) -> false, (2) -> false }
function controlled isRight : -> BOOLEAN
derived isSole(n) = hasToken(n) and (forall m in Node holds m = n or not hasToken(m))
derived exactlyOne = (exists n in Node with isSole(n))
rule Pass = par
  isRight := exactlyOne
  forall n in Node with hasToken(n) do par
    hasToken(n) := false
    hasToken((n + 1) mod 3) := true
  endpar endforall
endpar
