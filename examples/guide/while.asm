CoreASM While
init Reduce
function controlled a initially 84
function controlled b initially 36
rule Reduce = while b != 0 do par
  a := b
  b := a mod b
endpar endwhile
