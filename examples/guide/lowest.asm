CoreASM Lowest
init Measure
universe Hour = 1 .. 4
function static degrees : Hour -> NUMBER initially { (1) -> 7, (2) -> 4, (3) -> 9, (4) -> 2 }
function controlled hour : -> NUMBER initially 1
function controlled wrong : -> NUMBER
function controlled lowest : -> NUMBER
rule Measure = par
  hour := hour + 1
  if wrong = undef or degrees(hour) < wrong then wrong := degrees(hour) endif
  if lowest = undef or (degrees(hour) < lowest) = true then lowest := degrees(hour) endif
endpar
