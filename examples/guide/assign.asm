CoreASM Assign
init Note
universe Day = 1 .. 3
function controlled today initially 1
function controlled rain : Day
rule Note = par
  rain(today) := today * 10
  today := today + 1
endpar
