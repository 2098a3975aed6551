CoreASM Ways
init Main

universe Index = 5 .. 7
function controlled total : Index

rule Main = par
  skip
  forall i in Index with i > 5 do Collect(i) endforall
endpar

rule Collect(i) = let goal = 2 * i in
  if goal < 14 then skip else seq
    total(i) := 0
    iterate
      if total(i) < goal then choose k in Index do total(i) := total(i) + k endchoose endif
    enditerate
  endseq endif
endlet
