CoreASM Gate
init Tick

// A railroad crossing with two tracks, by Gurevich and Huggins: a train is seen three ticks or more
// before it enters the crossing, and the gate needs one tick to close and one to open. The script
// says when trains come, enter and leave. A train in the crossing at an open gate would be a clash.

enum Track = { north, south }
enum Status = { empty, coming, inCrossing }
enum Gate = { opened, closing, closed, opening }
enum Event = { nothing, happens }

function controlled status : Track -> Status initially empty
// The time by which the gate has to begin to close.
function controlled deadline : Track -> NUMBER
function controlled time : -> NUMBER initially 0
function controlled gate : -> Gate initially opened
function controlled violation

derived timeToEnter = 3
derived timeToClose = 1
derived mustClose = (exists t in Track with time >= deadline(t))
derived mayOpen = (forall t in Track holds status(t) = empty)
derived isSafe = gate = closed or (forall t in Track holds status(t) != inCrossing)

rule Tick = par
  time := time + 1
  forall t in Track do
    choose e in Event do if e = happens then Train(t) endif endchoose
  endforall
  Control
  if not isSafe then par violation := 1 violation := 2 endpar endif
endpar

rule Train(t) =
  if status(t) = empty then par
    status(t) := coming
    deadline(t) := time + timeToEnter - timeToClose
  endpar else if status(t) = coming then par
    if time >= deadline(t) + timeToClose then status(t) := inCrossing endif
  endpar else par
    status(t) := empty
    deadline(t) := undef
  endpar endif endif

rule Control =
  if gate = opened then par
    if mustClose then gate := closing endif
  endpar else if gate = closing then gate := closed
  else if gate = closed then par
    if mayOpen then gate := opening endif
  endpar else gate := opened endif endif endif
