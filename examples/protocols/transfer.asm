CoreASM Transfer
init Step

// The alternating bit protocol over two queues that lose and duplicate messages. An item carries
// one bit, and its acknowledgement has the same. Items are numbered modulo 4, so that the transfer
// never ends and still has finitely many states.

enum Action = { send, takeItem, takeBit }
enum Fate = { arrives, arrivesAndStays, isLost }
universe Slot = 1 .. 2
universe Item = 0 .. 3

// The queues, from slot 1 on; undef behind the last message.
function controlled items : Slot -> Item
function controlled bits : Slot -> NUMBER
// The item that is sent until it is acknowledged, the one that is to be received next, and the one
// that was received last. Of an item the receiver reads the bit alone.
function controlled sending : -> Item initially 0
function controlled expected : -> Item initially 0
function controlled received : -> Item

derived bit(item) = item mod 2
derived next(item) = (item + 1) mod 4
derived isItemEnd(s) = items(s) = undef and (s = 1 or items(s - 1) != undef)
derived isBitEnd(s) = bits(s) = undef and (s = 1 or bits(s - 1) != undef)
derived can(a) = a = send and items(2) = undef
  or a = takeItem and items(1) != undef
  or a = takeBit and bits(1) != undef
derived isSafe = received = undef or next(received) = expected

rule Step = choose a in Action with can(a) do
  if a = send then forall s in Slot with isItemEnd(s) do items(s) := sending endforall
  else choose f in Fate do
    if a = takeItem then TakeItem(f) else TakeBit(f) endif
  endchoose endif
endchoose

// A message that stays comes again.
rule TakeItem(f) = par
  if f != arrivesAndStays then forall s in Slot do items(s) := items(s + 1) endforall endif
  if f != isLost then par
    if bit(items(1)) = bit(expected) then par
      received := items(1)
      expected := next(expected)
    endpar endif
    forall s in Slot with isBitEnd(s) do bits(s) := bit(items(1)) endforall
  endpar endif
endpar

rule TakeBit(f) = par
  if f != arrivesAndStays then forall s in Slot do bits(s) := bits(s + 1) endforall endif
  if f != isLost and bits(1) = bit(sending) then sending := next(sending) endif
endpar
