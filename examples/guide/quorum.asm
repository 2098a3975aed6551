CoreASM Quorum
init Ask
enum Leader = { ann, bob }
universe Node = 1 .. 4
function controlled vote : Node -> Leader
derived isIn(node, first) = first <= node and node <= first + 1
rule Ask = forall l in Leader do
  choose first in Node do
    forall n in Node with isIn(n, first) do Vote(n, l) endforall
  endchoose
endforall
rule Vote(n, l) = vote(n) <- Answer(l)
rule Answer(l) = result := l
