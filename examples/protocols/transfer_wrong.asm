CoreASM TransferWrong
init Step

// The alternating bit protocol over a channel in which a message may overtake another one, done
// wrong: an item that comes late has the same bit as the one after the next, and is taken for it.

enum Action = { send, takeItem, takeBit }
enum Fate = { arrives, arrivesAndStays, isLost }
universe Slot = 1 .. 2
universe Item = 0 .. 3

// The channels, from slot 1 on; undef behind the last message.
function controlled items : Slot -> Item
function controlled bits : Slot -> NUMBER
// The item that is sent until it is acknowledged, the one that is to be received next, and the one
// that was received last. Of an item the receiver reads the bit alone.
function controlled sending : -> Item initially 0
function controlled expected : -> Item initially 0
function controlled received : -> Item

derived bit(item) = item mod 2
derived next(item) = (item + 1) mod 4
derived isItemEnd(s) = items(s) = undef and (s = 1 or items(s - 1) != undef)
derived isBitEnd(s) = bits(s) = undef and (s = 1 or bits(s - 1) != undef)
derived can(a) = a = send and items(2) = undef
  or a = takeItem and items(1) != undef
  or a = takeBit and bits(1) != undef
derived isSafe = received = undef or next(received) = expected

rule Step = choose a in Action with can(a) do
  if a = send then forall s in Slot with isItemEnd(s) do items(s) := sending endforall
  else choose f in Fate do
    if a = takeBit then TakeBit(f)
    else choose s in Slot with items(s) != undef do TakeItem(s, f) endchoose endif
  endchoose endif
endchoose

// Any item may come, not only the one in slot 1. A message that stays comes again.
rule TakeItem(s, f) = par
  if f != arrivesAndStays then
    forall t in Slot with t >= s do items(t) := items(t + 1) endforall
  endif
  if f != isLost then par
    if bit(items(s)) = bit(expected) then par
      received := items(s)
      expected := next(expected)
    endpar endif
    forall t in Slot with isBitEnd(t) do bits(t) := bit(items(s)) endforall
  endpar endif
endpar

rule TakeBit(f) = par
  if f != arrivesAndStays then forall s in Slot do bits(s) := bits(s + 1) endforall endif
  if f != isLost and bits(1) = bit(sending) then sending := next(sending) endif
endpar
