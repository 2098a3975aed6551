CoreASM Mutex
init Schedule

// Mutual exclusion done right, by Peterson's algorithm: a process raises its flag, gives the turn
// away, and waits until it may enter. The script moves the processes by turns, as in mutex_wrong.
// Look at the last state: one is critical, and the other waits. Both in the critical section would
// be a clash.

enum Stage = { resting, raised, waiting, critical }
universe Process = 0 .. 1

function controlled stage : Process -> Stage initially resting
function controlled flag : Process -> BOOLEAN initially false
function controlled turn : -> Process
function controlled broken

derived other(process) = 1 - process
derived mayEnter(process) = not flag(other(process)) or turn = process
derived isSafe = not (stage(0) = critical and stage(1) = critical)

rule Schedule = par
  choose process in Process do Move(process) endchoose
  if not isSafe then par broken := 1 broken := 2 endpar endif
endpar

rule Move(process) = par
  if stage(process) = resting then par
    flag(process) := true
    stage(process) := raised
  endpar endif
  if stage(process) = raised then par
    turn := other(process)
    stage(process) := waiting
  endpar endif
  if stage(process) = waiting and mayEnter(process) then stage(process) := critical endif
  if stage(process) = critical then par
    flag(process) := false
    stage(process) := resting
  endpar endif
endpar
