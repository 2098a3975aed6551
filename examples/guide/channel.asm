CoreASM Channel
init Exchange
universe Slot = 0 .. 1
function controlled message : Slot -> NUMBER
function controlled sent : -> NUMBER initially 0
function controlled received : -> NUMBER initially 0
function controlled last : -> NUMBER
derived isFull = sent - received = 2
derived isEmpty = sent = received
rule Exchange = if isFull then Receive else Send(10 * (sent + 1)) endif
rule Send(m) = if not isFull then par
  message(sent mod 2) := m
  sent := sent + 1
endpar endif
rule Receive = if not isEmpty then par
  last := message(received mod 2)
  message(received mod 2) := undef
  received := received + 1
endpar endif
