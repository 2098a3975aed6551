CoreASM Raft
init Schedule

// The election of leaders as in Raft, by three nodes: one that hears of no leader for too long
// becomes a candidate in the next term, and asks the others for their votes. Each has one vote in a
// term, and two votes make a leader. A node that crashes remembers its term and its vote. The
// script lets node 2 vote for node 1, and crash. Look at step 5: it refuses its vote to node 3, who
// gets it in the next term. Two leaders of one term would be a clash.
// There is a last term, so that a search through all runs ends: it has 6,919 states with three
// terms, and 40,029 with four.

universe Node = 1 .. 3
universe Term = 1 .. 3
enum Role = { follower, candidate, leader }
enum Event = { timeout, ask, crash }

function controlled role : Node -> Role initially follower
function controlled term : Node -> NUMBER initially 0
// For whom a node has voted in its term.
function controlled votedFor : Node -> Node
// Whether a candidate has the vote of a node.
function controlled hasVote : Node * Node -> BOOLEAN initially false
// Who leads, or has led, in a term.
function controlled leads : Node * Term -> BOOLEAN initially false
function controlled broken

derived lastTerm = 3
derived mayStand(node) = role(node) != leader and term(node) < lastTerm
derived mayVoteFor(node, asker) = votedFor(node) = undef or votedFor(node) = asker
derived isSafe = (forall number in Term holds (forall one in Node holds (forall another in Node
  holds one = another or not (leads(one, number) and leads(another, number)))))

rule Schedule = par
  choose node in Node do
    choose event in Event do Happen(node, event) endchoose
  endchoose
  if not isSafe then par broken := 1 broken := 2 endpar endif
endpar

rule Happen(node, event) = par
  if event = timeout and mayStand(node) then Stand(node) endif
  if event = ask and role(node) = candidate then
    choose other in Node with other != node and not hasVote(node, other) do
      Ask(node, other)
    endchoose
  endif
  if event = crash then role(node) := follower endif
endpar

rule Stand(node) = par
  role(node) := candidate
  term(node) := term(node) + 1
  votedFor(node) := node
  forall other in Node do hasVote(node, other) := other = node endforall
endpar

// Who hears of a later term goes over to it, and has a new vote there.
rule Ask(node, other) =
  if term(other) < term(node) then par
    term(other) := term(node)
    role(other) := follower
    Grant(node, other)
  endpar else
    if term(other) = term(node) and mayVoteFor(other, node) then Grant(node, other) endif
  endif

// With its own vote the node has two of three.
rule Grant(node, other) = par
  votedFor(other) := node
  hasVote(node, other) := true
  role(node) := leader
  leads(node, term(node)) := true
endpar
