CoreASM Lock
init Step

// A server lends a lock to two clients, over a network that delays, reorders, duplicates and loses
// messages. The network is the set of all messages that were sent: each may arrive at any time,
// again and again, or never. Each loan has a number, by which an old message is told from a new
// one. There is a last loan, so that a search through all runs ends.

enum Client = { ann, bob }
enum Kind = { grant, release }
enum Event = { lend, take, giveBack, free }
universe Loan = 1 .. 3

// The set of messages.
function controlled isSent : Kind * Client * Loan -> BOOLEAN initially false
// Of the server: the latest loan, and who has the lock as far as it knows; undef where nobody has.
function controlled loan : -> NUMBER initially 0
function controlled borrower : -> Client
// Of a client: its latest loan, and whether it has the lock.
function controlled known : Client -> NUMBER initially 0
function controlled hasLock : Client -> BOOLEAN initially false

derived anySent(k, c) = (exists n in Loan with isSent(k, c, n))
derived can(c, e) = e = lend and borrower = undef and loan < 3
  or e = take and anySent(grant, c)
  or e = giveBack and hasLock(c)
  or e = free and anySent(release, c)
derived isSafe = not (hasLock(ann) and hasLock(bob))
derived isDone = loan = 3 and borrower = undef

rule Step = choose c in Client with (exists e in Event with can(c, e)) do
  choose e in Event with can(c, e) do Happen(c, e) endchoose
endchoose

rule Happen(c, e) = par
  if e = lend then par
    loan := loan + 1
    borrower := c
    isSent(grant, c, loan + 1) := true
  endpar endif
  if e = take then choose n in Loan with isSent(grant, c, n) do
    if n > known(c) then par known(c) := n hasLock(c) := true endpar endif
  endchoose endif
  if e = giveBack then par
    hasLock(c) := false
    isSent(release, c, known(c)) := true
  endpar endif
  if e = free then choose n in Loan with isSent(release, c, n) do
    if n = loan then borrower := undef endif
  endchoose endif
endpar
