CoreASM Chain
init Main
function controlled x initially 2
rule Main = if 1 < x < 3 then x := 3 endif
