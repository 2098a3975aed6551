CoreASM Toss
init Play
enum Side = { heads, tails }
function controlled rounds initially 2
function controlled shown
rule Play = if rounds > 0 then par
  rounds := rounds - 1
  Toss
endpar endif
rule Toss = choose s in Side do shown := s endchoose
