CoreASM Queens
init Move

// Eight queens: each step puts a queen on the next free square of the first row without one, or
// takes the last queen back where there is no such square. Look at the last state: no queen attacks
// another. It is the first solution in order, since choose takes the first candidate where no
// script says more.

universe Row = 1 .. 8
universe Column = 1 .. 8

function controlled column : Row -> Column
function controlled row : -> NUMBER initially 1
// The least column that hasn't been tried in a row.
function controlled least : Row -> NUMBER initially 1

derived square(n) = n * n
derived sameDiagonal(q, r, c) = square(column(q) - c) = square(q - r)
derived isFree(r, c) =
  (forall q in Row holds q >= r or column(q) != c and not sameDiagonal(q, r, c))

rule Move = if row <= 8 then
  choose c in Column with c >= least(row) and isFree(row, c) do par
    column(row) := c
    least(row) := c + 1
    row := row + 1
  endpar ifnone if row > 1 then par
    least(row) := 1
    column(row - 1) := undef
    row := row - 1
  endpar endif endchoose
endif
