CoreASM Fare
init Ride
enum Zone = { city, suburb, airport }
function static price : Zone -> NUMBER initially { (city) -> 2, (suburb) -> 3 }
function controlled zone : -> Zone initially suburb
function controlled paid : -> NUMBER initially 0
rule Ride = par
  paid := paid + price(zone)
  zone := airport
endpar
