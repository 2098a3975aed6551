CoreASM Board
init Main
universe Row = 0 .. 255
universe Column = 0 .. 255
function controlled field : Row * Column
rule Main = skip
