CoreASM Bell
init Listen
enum Signal = { silence, ring }
function controlled rings initially 0
rule Listen = choose signal in Signal do
  if signal = ring then rings := rings + 1 endif
endchoose
