CoreASM Week
init Next
enum Day = { friday, saturday, sunday }
function controlled today initially friday
function static after : Day -> Day initially {
  (friday) -> saturday, (saturday) -> sunday, (sunday) -> friday }
rule Next = today := after(today)
