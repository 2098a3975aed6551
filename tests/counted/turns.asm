CoreASM Turns
init Main

// A thousand turns in each step, each but the last of which is a sequence of three parts, with a call
// before two assignments.

universe Cell = 0 .. 99
function controlled turn initially 0
function controlled sum initially 0
function controlled kept : Cell initially 0

rule Main = seq
  turn := 0
  iterate if turn < 999 then seq
    Add(turn * 3 + 1)
    kept(turn mod 100) := sum
    turn := turn + 1
  endseq endif enditerate
endseq

rule Add(number) = sum := (sum + number) mod 1000003
