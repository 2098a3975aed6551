CoreASM Dice
init Throw
universe Pips = 1 .. 6
function controlled last : -> Pips
function controlled throws : -> NUMBER initially 0
rule Throw = seq
  last := undef
  iterate choose p in Pips with last != 6 do par
    last := p
    throws := throws + 1
  endpar endchoose enditerate
endseq
