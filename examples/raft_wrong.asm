CoreASM RaftWrong
init Schedule

// The election of leaders as in Raft, done wrong: a node that crashes forgets for whom it has
// voted, though it remembers its term. The script lets node 2 vote for node 1, crash, and vote for
// node 3 in the same term. So two lead in it, and the next step clashes.

universe Node = 1 .. 3
universe Term = 1 .. 3
enum Role = { follower, candidate, leader }
enum Event = { timeout, ask, crash }

function controlled role : Node -> Role initially follower
function controlled term : Node -> NUMBER initially 0
// For whom a node has voted in its term.
function controlled votedFor : Node -> Node
// Whether a candidate has the vote of a node.
function controlled hasVote : Node * Node -> BOOLEAN initially false
// Who leads, or has led, in a term.
function controlled leads : Node * Term -> BOOLEAN initially false
function controlled broken

derived lastTerm = 3
derived mayStand(node) = role(node) != leader and term(node) < lastTerm
derived mayVoteFor(node, asker) = votedFor(node) = undef or votedFor(node) = asker
derived isSafe = (forall number in Term holds (forall one in Node holds (forall another in Node
  holds one = another or not (leads(one, number) and leads(another, number)))))

rule Schedule = par
  choose node in Node do
    choose event in Event do Happen(node, event) endchoose
  endchoose
  if not isSafe then par broken := 1 broken := 2 endpar endif
endpar

rule Happen(node, event) = par
  if event = timeout and mayStand(node) then Stand(node) endif
  if event = ask and role(node) = candidate then
    choose other in Node with other != node and not hasVote(node, other) do
      Ask(node, other)
    endchoose
  endif
  if event = crash then par
    role(node) := follower
    votedFor(node) := undef
  endpar endif
endpar

rule Stand(node) = par
  role(node) := candidate
  term(node) := term(node) + 1
  votedFor(node) := node
  forall other in Node do hasVote(node, other) := other = node endforall
endpar

// Who hears of a later term goes over to it, and has a new vote there.
rule Ask(node, other) =
  if term(other) < term(node) then par
    term(other) := term(node)
    role(other) := follower
    Grant(node, other)
  endpar else
    if term(other) = term(node) and mayVoteFor(other, node) then Grant(node, other) endif
  endif

// With its own vote the node has two of three.
rule Grant(node, other) = par
  votedFor(other) := node
  hasVote(node, other) := true
  role(node) := leader
  leads(node, term(node)) := true
endpar
