CoreASM Stop
init Tick
universe Nowhere = 1 .. 0
function controlled seconds initially 2
function controlled done : Nowhere
rule Tick = if seconds > 0 then seconds := seconds - 1 else done(0) := true endif
