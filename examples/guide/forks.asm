CoreASM Forks
init Dine

// Philosophers who take the fork to the left first, and then the one to the right.

enum Stage = { thinking, reaching, eating }
universe Seat = 0 .. 3

function controlled stage : Seat -> Stage initially thinking
// Who has the fork to the left of a seat; undef while it lies on the table.
function controlled holder : Seat -> Seat

derived right(seat) = (seat + 1) mod 4

rule Dine = choose seat in Seat do Move(seat) endchoose

rule Move(seat) = par
  if stage(seat) = thinking and holder(seat) = undef then par
    stage(seat) := reaching
    holder(seat) := seat
  endpar endif
  if stage(seat) = reaching and holder(right(seat)) = undef then par
    stage(seat) := eating
    holder(right(seat)) := seat
  endpar endif
  if stage(seat) = eating then par
    stage(seat) := thinking
    holder(seat) := undef
    holder(right(seat)) := undef
  endpar endif
endpar
