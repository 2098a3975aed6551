CoreASM Paths
init Search

// Breadth-first search: each step is a wave, and gives their distance from node 1 to all nodes that
// are one edge further. A node that two others reach at once gets the same distance twice, which is
// one update and no clash.

universe Node = 1 .. 9

function static edge : Node * Node -> BOOLEAN initially {
  (1, 2) -> true, (1, 3) -> true, (2, 4) -> true, (3, 4) -> true, (3, 5) -> true, (4, 6) -> true,
  (5, 3) -> true, (5, 6) -> true, (6, 1) -> true, (6, 7) -> true, (7, 8) -> true, (9, 8) -> true }

// The distance of a node that isn't reached is undef. No edge leads to node 9, so the last state is
// without it.
function controlled distance : Node -> NUMBER initially { (1) -> 0 }

rule Search = forall near in Node with distance(near) != undef do
  forall far in Node with edge(near, far) and distance(far) = undef do
    distance(far) := distance(near) + 1
  endforall
endforall
