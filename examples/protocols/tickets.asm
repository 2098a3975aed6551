CoreASM Tickets
init Step

// A machine issues tickets, and none twice, though it may crash at any time. What is in its memory
// is lost then, and what is on its disk stays. It writes the number to the disk first, and then
// issues the ticket. Of a crash in between a number is left out.

enum Event = { move, crash }
enum Stage = { starting, resting, noted }
universe Ticket = 1 .. 3

// In memory.
function controlled stage : -> Stage initially starting
function controlled next : -> NUMBER
// On the disk: the last number that may be in use.
function controlled last : -> NUMBER initially 0
// Which tickets were issued, and whether one was issued twice. Only the condition reads these.
function controlled isIssued : Ticket -> BOOLEAN initially false
function controlled isRepeated : -> BOOLEAN initially false

derived isSafe = not isRepeated

rule Step = choose e in Event do
  if e = crash then par stage := starting next := undef endpar else Move endif
endchoose

rule Move = par
  if stage = starting then par
    next := last + 1
    stage := resting
  endpar endif
  if stage = resting and next <= 3 then par
    last := next
    stage := noted
  endpar endif
  if stage = noted then par
    Issue
    next := next + 1
    stage := resting
  endpar endif
endpar

rule Issue = par
  if isIssued(next) then isRepeated := true endif
  isIssued(next) := true
endpar
