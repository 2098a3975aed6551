CoreASM Boiler
init Guard

// A guard reads two thermometers in each step, and heats or rests by what both of them say. Where they
// are far apart, one of them must be wrong: the guard leaves the heater as it is, and where they are
// so a second time in succession it locks the heater. What they say comes from outside, so it is chosen,
// and candidate 61 is 61 degrees. The script says what they say in every step, and in one step in which
// a loose wire makes the left one say 0. A guard that went by the lower of the two would heat there.

universe Degree = 0 .. 120
enum Side = { left, right }
enum Mode = { resting, heating, locked }

function controlled reading : Side -> Degree
function controlled heater : -> Mode initially resting
function controlled doubts : -> NUMBER initially 0

derived apart = reading(left) - reading(right) > 5 or reading(right) - reading(left) > 5
derived cold = reading(left) < 55 and reading(right) < 55
derived hot = reading(left) > 70 or reading(right) > 70

rule Guard = seq
  forall s in Side do
    choose d in Degree do reading(s) := d endchoose
  endforall
  if apart then Doubt else Trust endif
endseq

rule Doubt = if doubts = 0 then doubts := 1 else heater := locked endif

rule Trust = par
  doubts := 0
  if heater != locked then par
    if cold then heater := heating endif
    if hot then heater := resting endif
  endpar endif
endpar
