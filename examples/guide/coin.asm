CoreASM Coin
init Toss
enum Side = { heads, tails }
function controlled shown
rule Toss = choose s in Side do shown := s endchoose
