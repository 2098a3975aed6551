CoreASM Agree
init Vote
function controlled leader
rule Vote = par
  leader := 2
  leader := 1 + 1
endpar
