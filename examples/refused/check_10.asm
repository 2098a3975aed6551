CoreASM Table
init Main
universe Index = 1 .. 3
function controlled f : Index initially 0
rule Main = f := 1
