CoreASM IncrementWrong
init Step

// Two processes each add 1 to a shared total, done wrong: each reads the total in one step, and
// sets it in a later one. What the other one adds in between is lost.

enum Stage = { reading, writing, done }
universe Process = 1 .. 2

function controlled total : -> NUMBER initially 0
function controlled stage : Process -> Stage initially reading
// What a process has read, while it is writing.
function controlled copy : Process -> NUMBER

derived isDone = (forall p in Process holds stage(p) = done)
derived isSafe = not isDone or total = 2

rule Step = choose p in Process with stage(p) != done do Move(p) endchoose

rule Move(p) = if stage(p) = reading then par
  copy(p) := total
  stage(p) := writing
endpar else par
  total := copy(p) + 1
  stage(p) := done
  copy(p) := undef
endpar endif
