CoreASM Quicksort
init Sort

// A quicksort in place, in one step: a stack of ranges that aren't sorted yet stands for the calls,
// since no rule may call itself. The ranges and exchanges follow each other inside the step, and
// its trace has only the value that each location has in the end.

universe Index = 0 .. 11
universe Depth = 1 .. 12

function controlled number : Index -> NUMBER initially {
  (0) -> 27, (1) -> 8, (2) -> 45, (3) -> 3, (4) -> 60, (5) -> 19,
  (6) -> 8, (7) -> 72, (8) -> 33, (9) -> 51, (10) -> 14, (11) -> 38 }
// The stack: the first and the last index of each range, and how many ranges there are.
function controlled start : Depth
function controlled stop : Depth
function controlled depth initially 0
// In a partition, the numbers before `border` are lesser than the last one, and those from there to
// before `next` aren't.
function controlled border : -> Index
function controlled next : -> Index

rule Sort = seq
  Push(0, 11)
  iterate if depth > 0 then let first = start(depth) in let last = stop(depth) in seq
    Pop
    if first < last then seq
      Partition(first, last)
      Push(first, border - 1)
      Push(border + 1, last)
    endseq endif
  endseq endlet endlet endif enditerate
endseq

rule Partition(first, last) = seq
  border := first
  next := first
  iterate if next < last then par
    if number(next) < number(last) then par
      Exchange(border, next)
      border := border + 1
    endpar endif
    next := next + 1
  endpar endif enditerate
  Exchange(border, last)
endseq

rule Exchange(one, other) = par
  number(one) := number(other)
  number(other) := number(one)
endpar

rule Push(first, last) = par
  start(depth + 1) := first
  stop(depth + 1) := last
  depth := depth + 1
endpar

rule Pop = par
  start(depth) := undef
  stop(depth) := undef
  depth := depth - 1
endpar
