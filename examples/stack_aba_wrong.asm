CoreASM StackAbaWrong
init Schedule

// Treiber's stack, which two threads share without a lock, done wrong: there is no tag beside its
// top. To pop, a thread looks at the top and the next cell in one step, and in another one it makes
// that cell the top, if the top is the one that it saw. What goes wrong is known as ABA: the script
// lets bob pop two cells and push the first again while ann is between her steps. The top is what
// she saw, and the next cell is another one. So she makes a cell the top that bob holds, and the
// next step clashes.

universe Cell = 1 .. 3
enum Thread = { ann, bob }
enum Stage = { resting, popping }
enum Action = { pop, push }

function controlled top : -> Cell initially 1
function controlled next : Cell -> Cell initially { (1) -> 2, (2) -> 3 }
// Who has popped a cell; undef while it is in the stack.
function controlled holder : Cell -> Thread
function controlled stage : Thread -> Stage initially resting
function controlled seenTop : Thread -> Cell
function controlled seenNext : Thread -> Cell
function controlled broken

derived isAsSeen(thread) = top = seenTop(thread)
derived isInStack(cell) = holder(cell) = undef
derived isSafe = top = undef or isInStack(top)

rule Schedule = par
  choose thread in Thread do
    if stage(thread) = popping then Exchange(thread)
    else choose action in Action do
      if action = pop then Look(thread) else Push(thread) endif
    endchoose endif
  endchoose
  if not isSafe then par broken := 1 broken := 2 endpar endif
endpar

rule Look(thread) = if top != undef then par
  seenTop(thread) := top
  seenNext(thread) := next(top)
  stage(thread) := popping
endpar endif

rule Exchange(thread) = par
  stage(thread) := resting
  if isAsSeen(thread) then par
    top := seenNext(thread)
    holder(top) := thread
  endpar endif
endpar

rule Push(thread) = choose cell in Cell with holder(cell) = thread do par
  next(cell) := top
  top := cell
  holder(cell) := undef
endpar endchoose
