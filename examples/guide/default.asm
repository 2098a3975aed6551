CoreASM Default
init Ride
enum Zone = { city, suburb, airport }
function static price : Zone -> NUMBER initially { (city) -> 2, (suburb) -> 3 }
function controlled zone : -> Zone initially suburb
function controlled paid : -> NUMBER initially 0
derived otherPrice = 9
rule Ride = par
  if price(zone) = undef then Pay(otherPrice) else Pay(price(zone)) endif
  zone := airport
endpar
rule Pay(n) = paid := paid + n
