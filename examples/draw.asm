CoreASM Draw
init Draw

// Three players draw a card at once, twice, each of a suit that they don't hold. The script
// says which: a line has a step, the path of a choice in this step, and the number of a candidate.
// Without a line it is the first one.

enum Suit = { hearts, spades, clubs }
universe Player = 1 .. 3

function controlled card : Player -> Suit
function controlled drawn : Player initially 0

rule Draw = forall p in Player with drawn(p) < 2 do
  let count = drawn(p) + 1 in par
    drawn(p) := count
    choose s in Suit with s != card(p) do card(p) := s endchoose
  endpar endlet
endforall
