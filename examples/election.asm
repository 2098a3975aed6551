CoreASM Election
init Elect

// Leader election on a ring: each process looks at the one before it, and passes on the greatest
// number that it knows. Who gets its own number back leads: it has been all round, past every other
// process. Two leaders would be a clash, and end the run.

universe Process = 0 .. 5

function static number : Process -> NUMBER initially {
  (0) -> 12, (1) -> 31, (2) -> 7, (3) -> 45, (4) -> 20, (5) -> 18 }
function controlled greatest : Process -> NUMBER
function controlled leader : -> Process

derived before(process) = (process + 5) mod 6

rule Elect = if leader = undef then forall process in Process do
  Listen(process, greatest(before(process)))
endforall endif

// In the first step `greatest` is undef everywhere, so the two other conditions don't hold.
rule Listen(process, heard) = par
  if greatest(process) = undef then greatest(process) := number(process) endif
  if heard > greatest(process) then greatest(process) := heard endif
  if heard = number(process) then leader := process endif
endpar
