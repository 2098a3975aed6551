CoreASM Turing
init Work

// A Turing machine: the busy beaver with three states, which writes six ones on an empty tape and
// halts after 14 steps. Its program is three static tables: what to write, where to move the head,
// and which state comes next.

enum State = { A, B, C, halted }
universe Symbol = 0 .. 1
universe Cell = -2 .. 5

function static written : State * Symbol -> Symbol initially {
  (A, 0) -> 1, (A, 1) -> 1, (B, 0) -> 0, (B, 1) -> 1, (C, 0) -> 1, (C, 1) -> 1 }
function static move : State * Symbol -> NUMBER initially {
  (A, 0) -> 1, (A, 1) -> 1, (B, 0) -> 1, (B, 1) -> 1, (C, 0) -> -1, (C, 1) -> -1 }
function static next : State * Symbol -> State initially {
  (A, 0) -> B, (A, 1) -> halted, (B, 0) -> C, (B, 1) -> B, (C, 0) -> C, (C, 1) -> A }

function controlled tape : Cell -> Symbol initially 0
function controlled head : -> Cell initially 0
function controlled state : -> State initially A

rule Work = if state != halted then let symbol = tape(head) in par
  tape(head) := written(state, symbol)
  head := head + move(state, symbol)
  state := next(state, symbol)
endpar endlet endif
