CoreASM Alternating
init Step

// The alternating bit protocol over a channel that loses messages. The script says whether the
// sender or the receiver moves in a step, and what is lost. Look at the last state: the items have
// come in order, each once, though an item and an acknowledgement were lost. Another item would be
// a clash.

enum Agent = { sender, receiver }
enum Fate = { arrives, isLost }
universe Bit = 0 .. 1
universe Index = 1 .. 4

function static item : Index -> NUMBER initially { (1) -> 17, (2) -> 4, (3) -> 42, (4) -> 8 }
function controlled received : Index -> NUMBER
// The next item to be sent, and the next to be received.
function controlled next : -> NUMBER initially 1
function controlled count : -> NUMBER initially 1
function controlled sendBit : -> Bit initially 0
function controlled expectBit : -> Bit initially 0
// What is on its way; undef where nothing is.
function controlled data : -> NUMBER
function controlled dataBit : -> Bit
function controlled ack : -> Bit
function controlled broken

derived isSafe = (forall i in Index holds received(i) = undef or received(i) = item(i))

rule Step = par
  choose a in Agent do if a = sender then Send else Receive endif endchoose
  if not isSafe then par broken := 1 broken := 2 endpar endif
endpar

// The sender takes an acknowledgement, if there is one, and sends the next item or the same again.
rule Send = seq
  if ack = sendBit then par next := next + 1 sendBit := 1 - sendBit endpar endif
  ack := undef
  if next <= 4 then choose f in Fate do
    if f = arrives then par data := item(next) dataBit := sendBit endpar endif
  endchoose endif
endseq

rule Receive = if dataBit != undef then par
  if dataBit = expectBit then par
    received(count) := data
    count := count + 1
    expectBit := 1 - expectBit
  endpar endif
  data := undef
  dataBit := undef
  choose f in Fate do if f = arrives then ack := dataBit endif endchoose
endpar endif
