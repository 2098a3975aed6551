CoreASM Grid
init Main

// A grid of 16 rows and 32 columns, each cell of which is changed in each step, by itself and its
// neighbour below, and shown.

universe Row = 0 .. 15
universe Column = 0 .. 31
function controlled cell : Row * Column initially 1

rule Main = forall row in Row do forall column in Column do
  cell(row, column) := (cell(row, column) * 31 + cell((row + 1) mod 16, column) + row * 7 + column) mod 1000
endforall endforall
