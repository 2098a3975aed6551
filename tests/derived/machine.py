"""A stack machine on its program for the factorial of 5."""
import math

from trace import Trace, over

PROGRAM = [("push", 5), ("store", "n"), ("push", 1), ("store", "f"), ("load", "n"), ("jumpZero", 15)]
PROGRAM += [("load", "f"), ("load", "n"), ("mul", None), ("store", "f"), ("load", "n"), ("push", 1)]
PROGRAM += [("sub", None), ("store", "n"), ("jump", 4), ("halt", None)]

trace = Trace(["pc", "top"] + over("stack", range(8)) + over("memory", "nf"), {"pc": 0, "top": 0})
pc, stack, memory = 0, [], {}
while PROGRAM[pc][0] != "halt":
    op, arg = PROGRAM[pc]
    pc += 1
    updates = {}
    if op in ("push", "load"):
        stack.append(arg if op == "push" else memory[arg])
        updates = {f"stack({len(stack) - 1})": stack[-1]}
    elif op == "store":
        memory[arg] = stack.pop()
        updates = {f"memory({arg})": memory[arg]}
    elif op in ("mul", "sub"):
        right, left = stack.pop(), stack.pop()
        stack.append(left * right if op == "mul" else left - right)
        updates = {f"stack({len(stack) - 1})": stack[-1]}
    elif op == "jump" or stack.pop() == 0:
        pc = arg
    if op != "jump":
        updates["top"] = len(stack)
    trace.step(updates | {"pc": pc})
assert memory == {"f": math.factorial(5), "n": 0} and not stack
trace.step({})
trace.end()
