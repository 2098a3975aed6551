CoreASM BakeryWrong
init Schedule

// The bakery algorithm done wrong: nobody says that it is choosing. A process reads the other's
// number in one step, and takes its own in another one. So process 0 reads that there is no number,
// process 1 draws one and enters, and then 0 takes the same number, goes first, and enters too. By
// the script both are in the critical section then, and the next step clashes.

enum Stage = { resting, hasRead, waiting, critical }
universe Process = 0 .. 1

function controlled stage : Process -> Stage initially resting
// 0 while a process has none.
function controlled number : Process -> NUMBER initially 0
// The number of the other one, as it was read.
function controlled seen : Process -> NUMBER
function controlled broken

derived other(process) = 1 - process
derived hasNone(process) = number(process) = 0
derived isBefore(first, second) =
  number(first) < number(second) or number(first) = number(second) and first < second
derived mayEnter(process) = hasNone(other(process)) or isBefore(process, other(process))
derived isSafe = not (stage(0) = critical and stage(1) = critical)

rule Schedule = par
  choose process in Process do Move(process) endchoose
  if not isSafe then par broken := 1 broken := 2 endpar endif
endpar

rule Move(process) = par
  if stage(process) = resting then par
    seen(process) := number(other(process))
    stage(process) := hasRead
  endpar endif
  if stage(process) = hasRead then par
    number(process) := seen(process) + 1
    stage(process) := waiting
  endpar endif
  if stage(process) = waiting and mayEnter(process) then stage(process) := critical endif
  if stage(process) = critical then par
    number(process) := 0
    stage(process) := resting
  endpar endif
endpar
