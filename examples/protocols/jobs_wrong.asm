CoreASM JobsWrong
init Step

// Two workers share three jobs, done wrong: a worker is chosen who may have no job to do, and the
// shop is closed then, though the other one still has some.

enum Worker = { ann, bob }
enum Job = { cut, weld, paint }

function static hasLearnt : Worker * Job -> BOOLEAN initially {
  (ann, cut) -> true, (ann, weld) -> true, (bob, weld) -> true, (bob, paint) -> true }
function controlled doneBy : Job -> Worker
function controlled isClosed : -> BOOLEAN initially false

derived canDo(w, j) = doneBy(j) = undef and hasLearnt(w, j) = true
derived isSafe = not isClosed or (forall j in Job holds doneBy(j) != undef)

rule Step = if not isClosed then
  choose w in Worker do
    choose j in Job with canDo(w, j) do doneBy(j) := w ifnone isClosed := true endchoose
  endchoose
endif
