CoreASM MutexWrong
init Schedule

// Mutual exclusion done wrong: a process tests the other's flag in one step, and raises its own in
// another one. The script moves the processes by turns, and leads both into the critical section.
// Two updates that clash end the run there, so the last state is the one that must not be.

enum Stage = { resting, tested, critical }
universe Process = 0 .. 1

function controlled stage : Process -> Stage initially resting
function controlled flag : Process -> BOOLEAN initially false
function controlled broken

derived other(process) = 1 - process
derived isSafe = not (stage(0) = critical and stage(1) = critical)

rule Schedule = par
  choose process in Process do Move(process) endchoose
  if not isSafe then par broken := 1 broken := 2 endpar endif
endpar

rule Move(process) = par
  if stage(process) = resting and not flag(other(process)) then stage(process) := tested endif
  if stage(process) = tested then par
    flag(process) := true
    stage(process) := critical
  endpar endif
  if stage(process) = critical then par
    flag(process) := false
    stage(process) := resting
  endpar endif
endpar
