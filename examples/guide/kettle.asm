CoreASM Kettle
init Control
enum Heater = { off, low, high }
function controlled degrees initially 60
function controlled heater initially off
function controlled alarm
rule Control = par
  if degrees < 70 then heater := high
  else if degrees < 90 then heater := low else heater := off endif endif
  if alarm then heater := off endif
  degrees := degrees + 20
endpar
