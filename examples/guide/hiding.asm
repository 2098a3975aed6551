CoreASM Hiding
init Main
function controlled x initially 1
function controlled y
rule Main = let x = x + 1 in y := x endlet
