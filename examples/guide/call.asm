CoreASM Call
init Main
enum Cell = { left, right }
function controlled content : Cell initially 0
rule Main = par
  Raise(left, 1)
  Raise(right, 10)
  Rest
endpar
rule Raise(c, n) = content(c) := content(c) + n
rule Rest = skip
