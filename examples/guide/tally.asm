CoreASM Tally
init Count
universe Item = 1 .. 3
function static weight : Item -> NUMBER initially { (1) -> 4, (2) -> 0, (3) -> 5 }
function controlled total : -> NUMBER
function controlled i : -> NUMBER
rule Count = par
  seq
    par total := 0 i := 1 endpar
    while i <= 3 do let w = weight(i) in Add(w, i) endlet endwhile
  endseq
  if total = undef then Reset endif
endpar
rule Add(w, item) = seq
  i := i + 1
  total := total + w
endseq
rule Reset = total := 0
