CoreASM Forall
init Fill
universe Index = 1 .. 4
function controlled square : Index
function controlled half : Index
rule Fill = par
  forall i in Index do square(i) := i * i endforall
  forall i in Index with i mod 2 = 0 do half(i) := i div 2 endforall
endpar
