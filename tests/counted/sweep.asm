CoreASM Sweep
init Main

// Two thousand turns in one step, each of which names one location more: the set so far grows with
// the turns.

universe Cell = 0 .. 2000
function controlled at initially 0
function controlled seen : Cell

rule Main = iterate if at < 2000 then par
  seen(at) := at
  at := at + 1
endpar endif enditerate
