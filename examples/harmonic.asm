CoreASM Harmonic
init Add

// Harmonic numbers as fractions in lowest terms: each step adds the next one of 1, 1/2, 1/3 and so
// on. What the fraction is reduced by is the answer of a rule, Euclid's algorithm in a `while`.

function controlled next : -> NUMBER initially 1
// The sum is `above` / `below`.
function controlled above : -> NUMBER initially 0
function controlled below : -> NUMBER initially 1
function controlled divisor : -> NUMBER
function controlled rest : -> NUMBER

rule Add = seq
  par
    above := above * next + below
    below := below * next
    next := next + 1
  endpar
  divisor <- Divisor(above, below)
  par
    above := above div divisor
    below := below div divisor
  endpar
endseq

// The greatest common divisor.
rule Divisor(a, b) = seq
  par result := a rest := b endpar
  while rest != 0 do par
    result := rest
    rest := result mod rest
  endpar endwhile
endseq
