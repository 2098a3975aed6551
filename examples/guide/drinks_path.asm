CoreASM DrinksPlace
init Serve
enum Drink = { tea, coffee, juice }
universe Guest = 1 .. 3
function controlled round initially 0
function controlled cup : Guest -> Drink
rule Serve = par
  round := round + 1
  forall g in Guest with g = 2 do
    iterate round := round enditerate
  endforall
endpar
