CoreASM Choices
init Main

// Two thousand choices in each step, for each of which the script has a line: for the cells below
// 1000 in the first step alone, and for the others in every step.

universe Cell = 0 .. 1999
universe Colour = 0 .. 6
function controlled colour : Cell -> Colour

rule Main = forall cell in Cell do
  choose colour_of in Colour do colour(cell) := colour_of endchoose
endforall
