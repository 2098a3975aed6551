CoreASM Search
init Main

// Binary search, for all keys at once: each element of the `forall` calls the rule for an answer of
// its own. So that the searches don't clash, each key has its own `low` and `high`, too.

universe Index = 0 .. 11
universe Key = 1 .. 5

function static number : Index -> NUMBER initially {
  (0) -> 2, (1) -> 3, (2) -> 5, (3) -> 7, (4) -> 11, (5) -> 13,
  (6) -> 17, (7) -> 19, (8) -> 23, (9) -> 29, (10) -> 31, (11) -> 37 }
function static wanted : Key -> NUMBER initially {
  (1) -> 23, (2) -> 2, (3) -> 14, (4) -> 37, (5) -> 1 }

function controlled place : Key -> Index
// If the number is anywhere, it is at `low` or above, and below `high`.
function controlled low : Key -> Index
function controlled high : Key -> NUMBER

rule Main = forall key in Key do place(key) <- Search(key, wanted(key)) endforall

// Where there is no such number, `result` stays as it was.
rule Search(key, sought) = seq
  par low(key) := 0 high(key) := 12 endpar
  while high(key) - low(key) > 1 do
    let middle = (low(key) + high(key)) div 2 in
      if number(middle) <= sought then low(key) := middle else high(key) := middle endif
    endlet
  endwhile
  if number(low(key)) = sought then result := low(key) endif
endseq
