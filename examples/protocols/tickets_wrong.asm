CoreASM TicketsWrong
init Step

// A machine issues tickets, done wrong: it issues the ticket first, and then writes the number to
// its disk. After a crash in between it issues the same ticket again.

enum Event = { move, crash }
enum Stage = { starting, resting, issuing }
universe Ticket = 1 .. 3

// In memory.
function controlled stage : -> Stage initially starting
function controlled next : -> NUMBER
// On the disk: the last number that is in use.
function controlled last : -> NUMBER initially 0
// Which tickets were issued, and whether one was issued twice. Only the condition reads these.
function controlled isIssued : Ticket -> BOOLEAN initially false
function controlled isRepeated : -> BOOLEAN initially false

derived isSafe = not isRepeated

rule Step = choose e in Event do
  if e = crash then par stage := starting next := undef endpar else Move endif
endchoose

rule Move = par
  if stage = starting then par
    next := last + 1
    stage := resting
  endpar endif
  if stage = resting and next <= 3 then par
    Issue
    stage := issuing
  endpar endif
  if stage = issuing then par
    last := next
    next := next + 1
    stage := resting
  endpar endif
endpar

rule Issue = par
  if isIssued(next) then isRepeated := true endif
  isIssued(next) := true
endpar
