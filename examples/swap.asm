CoreASM Swap
init Exchange

// Two locations exchange their values in one step, and no third one keeps a value meanwhile: both
// right sides are valued in the state before the step, and the order of the lines means nothing.

function controlled a initially 1
function controlled b initially 2

rule Exchange = par
  a := b
  b := a
endpar
