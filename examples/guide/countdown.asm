CoreASM Countdown
init Tick

function controlled seconds initially 2

rule Tick = if seconds > 0 then seconds := seconds - 1 endif
