CoreASM Queue
init Exchange
enum Action = { send, receive }
enum Letter = { a, b }
universe Slot = 1 .. 2
function controlled queue : Slot -> Letter
function controlled last : -> Letter
derived isEnd(s) = queue(s) = undef and (s = 1 or queue(s - 1) != undef)
rule Exchange = choose x in Action do
  if x = send then choose m in Letter do Send(m) endchoose else Receive endif
endchoose
rule Send(m) = forall s in Slot with isEnd(s) do queue(s) := m endforall
rule Receive = if queue(1) != undef then par
  last := queue(1)
  forall s in Slot do queue(s) := queue(s + 1) endforall
endpar endif
