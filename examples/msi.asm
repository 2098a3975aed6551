CoreASM Msi
init Schedule

// Cache coherence by the protocol MSI, named by its states: each of three caches has a copy of one
// line of the memory, which is modified, shared or invalid. A cache that needs another state makes
// a request, and waits until the bus grants it. The script lets two caches that share the line ask
// for an upgrade to modified. That of 1 is granted, and makes the copy of 2 invalid. Look at step
// 9: the request of 2 is granted, and it gets the line from 1. A stale copy would be a clash. Each
// store stores a new number, so a search through all runs needs a bound on them.

universe Cache = 1 .. 3
enum State = { invalid, shared, modified }
enum Request = { none, read, readToModify, upgrade }
enum Action = { load, store, grant }

function controlled state : Cache -> State initially invalid
function controlled request : Cache -> Request initially none
function controlled copy : Cache -> NUMBER
function controlled memory : -> NUMBER initially 0
// What was stored last, by whichever cache.
function controlled latest : -> NUMBER initially 0
function controlled broken

derived isOwned = (exists cache in Cache with state(cache) = modified)
derived isSafe = (forall cache in Cache holds state(cache) = invalid or copy(cache) = latest)
// Beside a modified copy all others are invalid.
derived isExclusive = (forall owner in Cache holds state(owner) != modified
  or (forall cache in Cache holds cache = owner or state(cache) = invalid))

rule Schedule = par
  choose cache in Cache do
    choose action in Action do Act(cache, action) endchoose
  endchoose
  if not isSafe then par broken := 1 broken := 2 endpar endif
endpar

rule Act(cache, action) = par
  if action = load and state(cache) = invalid and request(cache) = none then
    request(cache) := read
  endif
  if action = store then Store(cache) endif
  if action = grant then par
    if request(cache) = read then Fetch(cache, shared) endif
    if request(cache) = readToModify then Fetch(cache, modified) endif
    if request(cache) = upgrade then
      if state(cache) = shared then Upgrade(cache) else Fetch(cache, modified) endif
    endif
    request(cache) := none
  endpar endif
endpar

rule Store(cache) =
  if state(cache) = modified then par
    copy(cache) := latest + 1
    latest := latest + 1
  endpar else if request(cache) = none then
    if state(cache) = shared then request(cache) := upgrade
    else request(cache) := readToModify endif
  endif endif

// The owner, if there is one, writes its copy back, and hands it over.
rule Fetch(cache, next) = par
  state(cache) := next
  if isOwned then forall owner in Cache with state(owner) = modified do par
    memory := copy(owner)
    copy(cache) := copy(owner)
  endpar endforall else copy(cache) := memory endif
  forall other in Cache with other != cache do
    if next = modified then state(other) := invalid
    else if state(other) = modified then state(other) := shared endif endif
  endforall
endpar

rule Upgrade(cache) = par
  state(cache) := modified
  forall other in Cache with other != cache do state(other) := invalid endforall
endpar
