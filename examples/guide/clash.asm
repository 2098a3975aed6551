CoreASM Clash
init Pay
enum Person = { ann, bob }
function controlled balance : Person initially 10
function controlled month initially 1
rule Pay = par
  balance(ann) := balance(ann) - 5
  if month = 2 then balance(ann) := balance(ann) + 3 endif
  month := month + 1
endpar
