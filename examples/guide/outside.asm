CoreASM Outside
init Warm
universe Degree = -1 .. 0
function controlled degree initially -1
function controlled seen : Degree
rule Warm = par
  seen(degree) := true
  degree := degree + 1
endpar
