CoreASM Let
init Change
function controlled coins initially 137
function controlled notes initially 0
rule Change = let n = coins div 100 in par
  notes := notes + n
  coins := coins - n * 100
endpar endlet
