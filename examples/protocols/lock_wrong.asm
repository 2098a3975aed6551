CoreASM LockWrong
init Step

// A server lends a lock to two clients, done wrong: loans have no numbers. The network is the set
// of all messages that were sent, and an old grant that arrives once more is taken for a new one.

enum Client = { ann, bob }
enum Kind = { grant, release }
enum Event = { lend, take, giveBack, free }

// The set of messages.
function controlled isSent : Kind * Client -> BOOLEAN initially false
// Who has the lock as far as the server knows; undef where nobody has.
function controlled borrower : -> Client
function controlled hasLock : Client -> BOOLEAN initially false

derived can(c, e) = e = lend and borrower = undef
  or e = take and isSent(grant, c)
  or e = giveBack and hasLock(c)
  or e = free and isSent(release, c)
derived isSafe = not (hasLock(ann) and hasLock(bob))

rule Step = choose c in Client with (exists e in Event with can(c, e)) do
  choose e in Event with can(c, e) do Happen(c, e) endchoose
endchoose

rule Happen(c, e) = par
  if e = lend then par
    borrower := c
    isSent(grant, c) := true
  endpar endif
  if e = take then hasLock(c) := true endif
  if e = giveBack then par
    hasLock(c) := false
    isSent(release, c) := true
  endpar endif
  if e = free then borrower := undef endif
endpar
