CoreASM Euclid
init Reduce

// Euclid's algorithm as a turbo rule: one step finds the greatest common divisors of all pairs,
// each by as many turns as it needs. Parameters are by name: `rest` stands for the term of the
// call, so each turn values it anew, in the state that the turn before has made.

universe Pair = 1 .. 4

function controlled larger : Pair -> NUMBER initially {
  (1) -> 1071, (2) -> 270, (3) -> 89, (4) -> 12 }
function controlled smaller : Pair -> NUMBER initially {
  (1) -> 462, (2) -> 192, (3) -> 55, (4) -> 0 }

rule Reduce = forall pair in Pair do Euclid(pair, larger(pair) mod smaller(pair)) endforall

rule Euclid(pair, rest) = iterate if smaller(pair) != 0 then par
  larger(pair) := smaller(pair)
  smaller(pair) := rest
endpar endif enditerate
