CoreASM Counter
init Count

// The least of machines: one location, which each step raises by one.
// The run has no end of its own, so the number of steps says where it stops.

function controlled x initially 0

rule Count = x := x + 1
