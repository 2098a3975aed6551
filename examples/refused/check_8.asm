CoreASM Lamp
init Main
enum Colour = { red, green }
function controlled red initially 0
rule Main = skip
