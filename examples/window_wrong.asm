CoreASM WindowWrong
init Step

// A sliding window with selective repeat done wrong: an item carries its number modulo 3, where the
// two windows of two items ask for 4. The script loses the acknowledgements of items 1 and 2, and
// the receiver's window moves on to items 3 and 4. Then item 1 is sent again, whose number is that
// of item 4, and kept in its place. The next step clashes.

universe Item = 1 .. 6
universe Offset = 0 .. 1
enum Fate = { arrives, isLost }

// The first item of the sender's window, and of the receiver's.
function controlled base : -> NUMBER initially 1
function controlled expected : -> NUMBER initially 1
function controlled isAcknowledged : Item -> BOOLEAN initially false
// What was put into the place of an item.
function controlled received : Item -> Item
function controlled broken

derived modulus = 3
derived number(item) = item mod modulus
derived maySend(item) = item <= 6 and not isAcknowledged(item)
derived mayKeep(place, item) = place <= 6 and number(place) = number(item)
derived isSafe = (forall item in Item holds received(item) = undef or received(item) = item)

rule Step = par
  choose offset in Offset with maySend(base + offset) do
    choose fate in Fate do if fate = arrives then Arrive(base + offset) endif endchoose
  endchoose
  // The windows move on.
  if isAcknowledged(base) then base := base + 1 endif
  if received(expected) != undef then expected := expected + 1 endif
  if not isSafe then par broken := 1 broken := 2 endpar endif
endpar

// The receiver keeps an item in a place that is empty, and acknowledges what comes in any case.
rule Arrive(item) = par
  choose ahead in Offset with mayKeep(expected + ahead, item) do
    if received(expected + ahead) = undef then received(expected + ahead) := item endif
  endchoose
  choose fate in Fate do if fate = arrives then isAcknowledged(item) := true endif endchoose
endpar
