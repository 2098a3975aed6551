CoreASM Life
init Life

// The game of life on a torus: the first step sets out five cells, and each later one makes a
// generation of all cells at once. A step names the cells that change, and no others.

universe Row = 0 .. 63
universe Column = 0 .. 63

function controlled alive : Row * Column initially 0
function controlled generation initially 0

rule Life = par
  if generation = 0 then SetOut else Live endif
  generation := generation + 1
endpar

rule SetOut = par
  Change(31, 32)
  Change(31, 33)
  Change(32, 31)
  Change(32, 32)
  Change(33, 32)
endpar

rule Live = forall row in Row do
  forall column in Column with changes(alive(row, column), neighbours(row, column)) do
    Change(row, column)
  endforall
endforall

rule Change(row, column) = alive(row, column) := 1 - alive(row, column)

// The parameters of a derived function are values, so the neighbours are counted once for each
// cell.
derived changes(cell, count) = cell = 0 and count = 3 or cell = 1 and count != 2 and count != 3
derived neighbours(row, column) =
  three(before(row), column) + three(row, column) - alive(row, column) + three(after(row), column)
derived three(row, column) =
  alive(row, before(column)) + alive(row, column) + alive(row, after(column))
derived before(index) = (index + 63) mod 64
derived after(index) = (index + 1) mod 64
