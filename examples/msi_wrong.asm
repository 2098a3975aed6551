CoreASM MsiWrong
init Schedule

// Cache coherence by the protocol MSI done wrong: the bus grants an upgrade from shared to modified
// though the copy has become invalid while the request waited. The script lets two caches that
// share the line ask for an upgrade. That of 1 is granted, 1 stores a number, and then that of 2 is
// granted, whose copy is stale. The next step clashes.

universe Cache = 1 .. 3
enum State = { invalid, shared, modified }
enum Request = { none, read, readToModify, upgrade }
enum Action = { load, store, grant }

function controlled state : Cache -> State initially invalid
function controlled request : Cache -> Request initially none
function controlled copy : Cache -> NUMBER
function controlled memory : -> NUMBER initially 0
// What was stored last, by whichever cache.
function controlled latest : -> NUMBER initially 0
function controlled broken

derived isOwned = (exists cache in Cache with state(cache) = modified)
derived isSafe = (forall cache in Cache holds state(cache) = invalid or copy(cache) = latest)

rule Schedule = par
  choose cache in Cache do
    choose action in Action do Act(cache, action) endchoose
  endchoose
  if not isSafe then par broken := 1 broken := 2 endpar endif
endpar

rule Act(cache, action) = par
  if action = load and state(cache) = invalid and request(cache) = none then
    request(cache) := read
  endif
  if action = store then Store(cache) endif
  if action = grant then par
    if request(cache) = read then Fetch(cache, shared) endif
    if request(cache) = readToModify then Fetch(cache, modified) endif
    if request(cache) = upgrade then Upgrade(cache) endif
    request(cache) := none
  endpar endif
endpar

rule Store(cache) =
  if state(cache) = modified then par
    copy(cache) := latest + 1
    latest := latest + 1
  endpar else if request(cache) = none then
    if state(cache) = shared then request(cache) := upgrade
    else request(cache) := readToModify endif
  endif endif

// The owner, if there is one, writes its copy back, and hands it over.
rule Fetch(cache, next) = par
  state(cache) := next
  if isOwned then forall owner in Cache with state(owner) = modified do par
    memory := copy(owner)
    copy(cache) := copy(owner)
  endpar endforall else copy(cache) := memory endif
  forall other in Cache with other != cache do
    if next = modified then state(other) := invalid
    else if state(other) = modified then state(other) := shared endif endif
  endforall
endpar

rule Upgrade(cache) = par
  state(cache) := modified
  forall other in Cache with other != cache do state(other) := invalid endforall
endpar
