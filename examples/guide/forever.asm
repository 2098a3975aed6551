CoreASM Forever
init Main
function controlled x initially 0
function controlled done initially false
rule Main = par
  done := true
  iterate x := 0 enditerate
endpar
