CoreASM Swap
init Swap
function controlled a initially 1
function controlled b initially 2
rule Swap = par a := b; b := a endpar
