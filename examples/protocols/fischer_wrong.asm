CoreASM FischerWrong
init Step

// Fischer's mutual exclusion, by time, done wrong: a process writes its number on the door within 2
// ticks, and waits for 2 ticks instead of 3. In the last of them another one may still write.

enum Event = { move, tick }
enum Stage = { resting, writing, waiting, critical }
universe Process = 1 .. 3

// Whose number is on the door; undef while it is free.
function controlled door : -> Process
function controlled stage : Process -> Stage initially resting
// The ticks that are left: for writing until it has to be done, for waiting until it may end.
function controlled left : Process -> NUMBER initially 0

derived canMove(p) = stage(p) = resting and door = undef
  or stage(p) = writing
  or stage(p) = waiting and left(p) = 0
  or stage(p) = critical
// Time doesn't pass while a process has to write.
derived canTick = (forall p in Process holds stage(p) != writing or left(p) > 0)
derived can(e) = e = tick and canTick or e = move and (exists p in Process with canMove(p))
derived isSafe = (forall p in Process holds (forall q in Process
  holds p = q or stage(p) != critical or stage(q) != critical))

rule Step = choose e in Event with can(e) do
  if e = move then choose p in Process with canMove(p) do Move(p) endchoose else Tick endif
endchoose

rule Tick = forall p in Process with left(p) > 0 do left(p) := left(p) - 1 endforall

rule Move(p) = par
  if stage(p) = resting then par stage(p) := writing left(p) := 2 endpar endif
  if stage(p) = writing then par door := p stage(p) := waiting left(p) := 2 endpar endif
  if stage(p) = waiting then
    if door = p then stage(p) := critical else stage(p) := resting endif
  endif
  if stage(p) = critical then par door := undef stage(p) := resting endpar endif
endpar
