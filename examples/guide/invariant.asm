CoreASM Invariant
init Main
function controlled level initially 0
function controlled broken
derived isSafe = level < 2
rule Main = par
  level := level + 1
  if not isSafe then par broken := 1 broken := 2 endpar endif
endpar
