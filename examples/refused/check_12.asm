CoreASM Sum
init Main
function controlled x initially 0
rule Main = Down(3)
rule Down(n) = if n > 0 then seq x := x + n Down(n - 1) endseq endif
