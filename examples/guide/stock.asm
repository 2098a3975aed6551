CoreASM Stock
init Sell
enum Fruit = { apple, pear }
universe Shelf = -1 .. 1
function controlled stored : Fruit * Shelf initially { (apple, -1) -> 5, (pear, 0) -> 3 }
function controlled sold : Fruit initially 0
rule Sell = par
  stored(apple, -1) := stored(apple, -1) - 1
  sold(apple) := sold(apple) + 1
endpar
