CoreASM Derived
init Grow
function controlled side initially 2
derived area = square(side)
derived square(n) = n * n
rule Grow = if area < 9 then side := side + 1 endif
