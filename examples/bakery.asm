CoreASM Bakery
init Schedule

// Mutual exclusion by Lamport's bakery algorithm: who wants to enter draws a number above the
// other's, and the smaller number goes first, of equal numbers that of process 0. To read the
// other's number is one step, and to take one's own is another. Until then a process says that it
// is choosing, and the other waits. The script lets both draw the same number, and process 0 goes
// first. Look at the last state: 0 has left, and 1 is critical. Both in the critical section would
// be a clash. Numbers can grow without end, so a search through all runs needs a bound on them.

enum Stage = { resting, choosing, hasRead, waiting, critical }
universe Process = 0 .. 1

function controlled stage : Process -> Stage initially resting
// 0 while a process has none.
function controlled number : Process -> NUMBER initially 0
function controlled isChoosing : Process -> BOOLEAN initially false
// The number of the other one, as it was read.
function controlled seen : Process -> NUMBER
function controlled broken

derived other(process) = 1 - process
derived hasNone(process) = number(process) = 0
derived isBefore(first, second) =
  number(first) < number(second) or number(first) = number(second) and first < second
derived mayEnter(process) = not isChoosing(other(process))
  and (hasNone(other(process)) or isBefore(process, other(process)))
derived isSafe = not (stage(0) = critical and stage(1) = critical)

rule Schedule = par
  choose process in Process do Move(process) endchoose
  if not isSafe then par broken := 1 broken := 2 endpar endif
endpar

rule Move(process) = par
  if stage(process) = resting then par
    isChoosing(process) := true
    stage(process) := choosing
  endpar endif
  if stage(process) = choosing then par
    seen(process) := number(other(process))
    stage(process) := hasRead
  endpar endif
  if stage(process) = hasRead then par
    number(process) := seen(process) + 1
    isChoosing(process) := false
    stage(process) := waiting
  endpar endif
  if stage(process) = waiting and mayEnter(process) then stage(process) := critical endif
  if stage(process) = critical then par
    number(process) := 0
    stage(process) := resting
  endpar endif
endpar
