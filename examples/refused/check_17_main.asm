CoreASM Area
init Square
function controlled side initially 3
rule Square = result := side * side
