CoreASM Philosophers
init Dine

enum Activity = { thinking, hungry, eating }
universe Philosopher = 0 .. 4
universe Fork = 0 .. 4

function controlled activity : Philosopher -> Activity initially thinking
function controlled holder : Fork -> Philosopher

derived left(philosopher) = philosopher
derived right(philosopher) = (philosopher + 1) mod 5
derived isFree(fork) = holder(fork) = undef
derived mayEat(philosopher) = isFree(left(philosopher)) and isFree(right(philosopher))
derived canMove(philosopher) = activity(philosopher) != hungry or mayEat(philosopher)

rule Dine = choose philosopher in Philosopher with canMove(philosopher) do
  Move(philosopher)
endchoose

rule Move(philosopher) = par
  if activity(philosopher) = thinking then activity(philosopher) := hungry endif
  if activity(philosopher) = hungry then par
    activity(philosopher) := eating
    holder(left(philosopher)) := philosopher
    holder(right(philosopher)) := philosopher
  endpar endif
  if activity(philosopher) = eating then par
    activity(philosopher) := thinking
    holder(left(philosopher)) := undef
    holder(right(philosopher)) := undef
  endpar endif
endpar
