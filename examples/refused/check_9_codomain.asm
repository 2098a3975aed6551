CoreASM Lamp
init Main
function controlled on : BOOLEAN initially true
rule Main = on := not on
