CoreASM Machine
init Step

// A stack machine, whose program stands in two static tables and works out the factorial of 5. Each
// step executes one instruction. Look at the last state: `f` is 120, and the machine has halted.
//
//   0 push 5     1 store n      2 push 1    3 store f
//   4 load n     5 jumpZero 15  6 load f    7 load n    8 mul    9 store f
//  10 load n    11 push 1      12 sub      13 store n  14 jump 4
//  15 halt

enum Op = { push, load, store, sub, mul, jump, jumpZero, halt }
enum Variable = { n, f }
universe Address = 0 .. 15
universe Depth = 0 .. 7

function static op : Address -> Op initially {
  (0) -> push, (1) -> store, (2) -> push, (3) -> store, (4) -> load, (5) -> jumpZero,
  (6) -> load, (7) -> load, (8) -> mul, (9) -> store, (10) -> load, (11) -> push, (12) -> sub,
  (13) -> store, (14) -> jump, (15) -> halt }
function static arg : Address -> ANY initially {
  (0) -> 5, (1) -> n, (2) -> 1, (3) -> f, (4) -> n, (5) -> 15, (6) -> f, (7) -> n, (9) -> f,
  (10) -> n, (11) -> 1, (13) -> n, (14) -> 4 }

function controlled pc : -> Address initially 0
// How many values there are on the stack, which grows from 0.
function controlled top : -> NUMBER initially 0
function controlled stack : Depth -> NUMBER
function controlled memory : Variable -> NUMBER

derived last = stack(top - 1)
derived lastButOne = stack(top - 2)

rule Step = let o = op(pc) in let a = arg(pc) in par
  if o = push then Push(a) endif
  if o = load then Push(memory(a)) endif
  if o = store then par memory(a) := last Pop endpar endif
  if o = sub then Replace(lastButOne - last) endif
  if o = mul then Replace(lastButOne * last) endif
  if o = jump then pc := a endif
  if o = jumpZero then par
    if last = 0 then pc := a else pc := pc + 1 endif
    top := top - 1
  endpar endif
endpar endlet endlet

rule Push(v) = par
  stack(top) := v
  top := top + 1
  pc := pc + 1
endpar

rule Pop = par
  top := top - 1
  pc := pc + 1
endpar

// Two values are taken away, and one is put in their place.
rule Replace(v) = par
  stack(top - 2) := v
  Pop
endpar
