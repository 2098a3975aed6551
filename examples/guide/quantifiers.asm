CoreASM Quantifiers
init Close
universe Door = 1 .. 2
function controlled open : Door initially true
function controlled done
derived anyOpen = (exists d in Door with open(d))
derived allClosed = (forall d in Door holds not open(d))
rule Close = par
  if anyOpen then choose d in Door with open(d) do open(d) := false endchoose endif
  if allClosed then done := true endif
endpar
