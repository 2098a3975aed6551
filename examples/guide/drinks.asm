CoreASM Drinks
init Serve

enum Drink = { tea, coffee, juice }
universe Guest = 1 .. 3

function controlled round initially 0
function controlled cup : Guest -> Drink

rule Serve = par
  round := round + 1
  forall g in Guest with g > round do
    choose d in Drink with d != cup(g) do cup(g) := d endchoose
  endforall
endpar
