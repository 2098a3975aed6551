CoreASM Stack
init Schedule

// Treiber's stack, which two threads share without a lock, with a tag beside its top: to pop, a
// thread looks at the top, the tag and the next cell in one step, and in another one it makes that
// cell the top, if top and tag are as it saw them. Each change raises the tag. To push is one step
// here, since it needs the top alone, and no next cell. The script lets bob pop two cells and push
// the first again while ann is between her steps. Look at step 7: the top is what she saw, and the
// tag isn't, so she pops nothing, and looks again. A top that somebody holds would be a clash. The
// tag grows without end, so a search through all runs needs a bound on it.

universe Cell = 1 .. 3
enum Thread = { ann, bob }
enum Stage = { resting, popping }
enum Action = { pop, push }

function controlled top : -> Cell initially 1
function controlled tag : -> NUMBER initially 0
function controlled next : Cell -> Cell initially { (1) -> 2, (2) -> 3 }
// Who has popped a cell; undef while it is in the stack.
function controlled holder : Cell -> Thread
function controlled stage : Thread -> Stage initially resting
function controlled seenTop : Thread -> Cell
function controlled seenTag : Thread -> NUMBER
function controlled seenNext : Thread -> Cell
function controlled broken

derived isAsSeen(thread) = top = seenTop(thread) and tag = seenTag(thread)
derived isInStack(cell) = holder(cell) = undef
derived isSafe = top = undef or isInStack(top)
// The next cell of one in the stack, if there is one, is in the stack too.
derived isLinked = (forall cell in Cell holds
  not isInStack(cell) or next(cell) = undef or isInStack(next(cell)))

rule Schedule = par
  choose thread in Thread do
    if stage(thread) = popping then Exchange(thread)
    else choose action in Action do
      if action = pop then Look(thread) else Push(thread) endif
    endchoose endif
  endchoose
  if not isSafe then par broken := 1 broken := 2 endpar endif
endpar

rule Look(thread) = if top != undef then par
  seenTop(thread) := top
  seenTag(thread) := tag
  seenNext(thread) := next(top)
  stage(thread) := popping
endpar endif

rule Exchange(thread) = par
  stage(thread) := resting
  if isAsSeen(thread) then par
    top := seenNext(thread)
    tag := tag + 1
    holder(top) := thread
  endpar endif
endpar

rule Push(thread) = choose cell in Cell with holder(cell) = thread do par
  next(cell) := top
  top := cell
  tag := tag + 1
  holder(cell) := undef
endpar endchoose
