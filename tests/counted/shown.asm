CoreASM Shown
init Main

// A last state of 12,000 lines, which a run without steps writes.

universe Row = 0 .. 59
universe Column = 0 .. 199
enum Kind = { free, taken, locked }
function controlled kind : Row * Column -> Kind initially taken

rule Main = skip
