CoreASM Jobs
init Step

// Two workers share three jobs. In each step a worker does a job that it has learnt and that is
// still open. When no worker can do any, the shop is closed.

enum Worker = { ann, bob }
enum Job = { cut, weld, paint }

function static hasLearnt : Worker * Job -> BOOLEAN initially {
  (ann, cut) -> true, (ann, weld) -> true, (bob, weld) -> true, (bob, paint) -> true }
function controlled doneBy : Job -> Worker
function controlled isClosed : -> BOOLEAN initially false

derived canDo(w, j) = doneBy(j) = undef and hasLearnt(w, j) = true
derived isSafe = not isClosed or (forall j in Job holds doneBy(j) != undef)

rule Step = if not isClosed then
  choose w in Worker with (exists j in Job with canDo(w, j)) do
    choose j in Job with canDo(w, j) do doneBy(j) := w endchoose
  ifnone isClosed := true endchoose
endif
