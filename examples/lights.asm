CoreASM Lights
init Turn

// Two traffic lights at a crossing change places in one step, but only while at most one of them is
// green. The derived functions have no locations: they are valued wherever they are used, and don't
// show in the trace.

enum Colour = { red, green }
universe Crossing = 1 .. 2

function controlled light : Crossing -> Colour initially { (1) -> red, (2) -> green }
derived other(c) = 3 - c
derived isSafe = (forall c in Crossing holds light(c) = red or light(other(c)) = red)

rule Turn = if isSafe then par
  light(1) := light(other(1))
  light(2) := light(other(2))
endpar endif
