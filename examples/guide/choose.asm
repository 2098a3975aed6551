CoreASM Choose
init Seat
universe Chair = 1 .. 2
function controlled taken : Chair initially false
function controlled full
rule Seat = choose c in Chair with not taken(c) do taken(c) := true ifnone full := true endchoose
