CoreASM Primes
init Sieve

// The sieve of Eratosthenes: each step takes the next divisor, and crosses out all its multiples at
// once. What is crossed out becomes undef and leaves the state, so the last state shows the primes
// up to 50.

universe Number = 2 .. 50

function controlled remains : Number -> BOOLEAN initially true
function controlled divisor : -> Number initially 2

rule Sieve = if divisor * divisor <= 50 then par
  if remains(divisor) then CrossOutMultiples endif
  divisor := divisor + 1
endpar endif

rule CrossOutMultiples = forall number in Number with remains(number) and isMultiple(number) do
  remains(number) := undef
endforall

derived isMultiple(number) = number > divisor and number mod divisor = 0
