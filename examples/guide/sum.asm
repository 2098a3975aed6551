CoreASM Sum
init Sum
enum Fruit = { apple, pear, plum }
function static stored : Fruit -> NUMBER initially { (apple) -> 5, (pear) -> 0, (plum) -> 7 }
function controlled isAdded : Fruit -> BOOLEAN
function controlled sum : -> NUMBER
function controlled count : -> NUMBER
rule Sum = seq
  par
    sum := 0
    count := 0
    forall f in Fruit do isAdded(f) := false endforall
  endpar
  iterate choose f in Fruit with not isAdded(f) do par
    isAdded(f) := true
    sum := sum + stored(f)
    if stored(f) > 0 then count := count + 1 endif
  endpar endchoose enditerate
endseq
