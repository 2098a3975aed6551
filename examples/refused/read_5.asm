CoreASM Lamp
init Main
function controlled on initially true
rule Main = if on then on := false
rule Other = skip
