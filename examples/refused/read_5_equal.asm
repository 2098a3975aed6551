CoreASM Lamp
init Main
function controlled on initially true
rule Main = if on == true then on := false endif
