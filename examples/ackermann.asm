CoreASM Ackermann
init Main

// Ackermann's function by a stack that stands for its calls, since no rule may call itself: A(m, n)
// is n + 1 where m is 0, else A(m - 1, 1) where n is 0, else A(m - 1, A(m, n - 1)). Each step works
// out the values for one m.

universe First = 0 .. 3
universe Second = 0 .. 2
universe Depth = 1 .. 40

function controlled m : -> NUMBER initially 0
function controlled value : First * Second -> NUMBER
// The stack: the m of each call that isn't answered yet, and how many there are. The n of the
// topmost one is the `result` so far.
function controlled waiting : Depth -> First
function controlled depth : -> NUMBER

rule Main = par
  seq
    value(m, 0) <- Ackermann(m, 0)
    value(m, 1) <- Ackermann(m, 1)
    value(m, 2) <- Ackermann(m, 2)
  endseq
  m := m + 1
endpar

rule Ackermann(first, second) = seq
  par result := second waiting(1) := first depth := 1 endpar
  while depth > 0 do
    let top = waiting(depth) in
      if top = 0 then par
        result := result + 1
        waiting(depth) := undef
        depth := depth - 1
      endpar else par
        waiting(depth) := top - 1
        if result = 0 then result := 1 else par
          waiting(depth + 1) := top
          result := result - 1
          depth := depth + 1
        endpar endif
      endpar endif
    endlet
  endwhile
endseq
