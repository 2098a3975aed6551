CoreASM Cash
init Serve

// A cash machine: each step is one action of its user, chosen among those that the machine waits
// for. The script types a wrong code, then the right one, asks for more than there is, and then for
// less, which is paid.

enum Action = { insertCard, typeCode, askAmount, takeMoney, cancel }
enum Mode = { waitsForCard, waitsForCode, waitsForAmount, pays }
universe Card = 1 .. 2
universe Code = 0 .. 9
universe Amount = 10 .. 100

// Where the table says nothing the function is undef, and a condition that is undef doesn't hold.
function static allows : Mode * Action -> BOOLEAN initially {
  (waitsForCard, insertCard) -> true, (waitsForCode, typeCode) -> true,
  (waitsForCode, cancel) -> true, (waitsForAmount, askAmount) -> true,
  (waitsForAmount, cancel) -> true, (pays, takeMoney) -> true }
function static codeOf : Card -> Code initially { (1) -> 7, (2) -> 3 }

function controlled mode : -> Mode initially waitsForCard
function controlled inserted : -> Card
function controlled balance : Card -> NUMBER initially { (1) -> 50, (2) -> 80 }
function controlled money : -> Amount

rule Serve = choose action in Action with allows(mode, action) do par
  if action = insertCard then choose card in Card do TakeIn(card) endchoose endif
  if action = typeCode then choose code in Code do CheckCode(code) endchoose endif
  if action = askAmount then choose amount in Amount with amount mod 10 = 0 do
    Pay(amount)
  endchoose endif
  if action = takeMoney then money := undef endif
  if action = takeMoney or action = cancel then ReturnCard endif
endpar endchoose

rule TakeIn(card) = par
  inserted := card
  mode := waitsForCode
endpar

rule ReturnCard = par
  inserted := undef
  mode := waitsForCard
endpar

rule CheckCode(code) = if code = codeOf(inserted) then mode := waitsForAmount else ReturnCard endif

// Where the balance doesn't suffice nothing is updated, and the machine still waits for an amount.
rule Pay(amount) = if amount <= balance(inserted) then par
  balance(inserted) := balance(inserted) - amount
  money := amount
  mode := pays
endpar endif
