CoreASM Sort
init Sort

// A merge sort from the bottom up, in one step: however often its parts change a location on the
// way, the step has one update for it. All pairs of runs are merged at once, and each merge goes on
// by itself, turn after turn.

enum Side = { left, right }
universe Index = 0 .. 1023

function controlled number : Index
function controlled merged : Index
// How long the sorted runs are.
function controlled width
// For each pair of runs, named by the index at which it begins: the index of the next number of
// either run.
function controlled next : Index * Side

rule Sort = seq
  Fill
  iterate if width < 1024 then seq
    forall start in Index with start mod (width * 2) = 0 do Merge(start) endforall
    forall index in Index do number(index) := merged(index) endforall
    width := width * 2
  endseq endif enditerate
endseq

// Squares modulo a prime: they are in disorder, and most of them come twice.
rule Fill = par
  forall index in Index do number(index) := index * index mod 1021 endforall
  width := 1
endpar

rule Merge(start) = seq
  par
    next(start, left) := start
    next(start, right) := start + width
  endpar
  iterate seq
    MoveWhile(hasLeft(start) and rightIsFirst(start) != true, start, left)
    MoveWhile(hasRight(start) and leftIsFirst(start) != true, start, right)
  endseq enditerate
endseq

// Parameters are by name, so the condition is valued anew in each turn, in the state that the turns
// before have made.
rule MoveWhile(condition, start, side) = iterate if condition then par
  merged(next(start, left) + next(start, right) - width - start) := number(next(start, side))
  next(start, side) := next(start, side) + 1
endpar endif enditerate

derived hasLeft(start) = next(start, left) < start + width
derived hasRight(start) = next(start, right) < start + width * 2
// These two are undef, and not false, where there is no number behind the last run.
derived leftIsFirst(start) =
  hasLeft(start) and number(next(start, left)) <= number(next(start, right))
derived rightIsFirst(start) =
  hasRight(start) and number(next(start, right)) < number(next(start, left))
