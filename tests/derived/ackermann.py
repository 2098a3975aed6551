"""Ackermann's function, by a recursion that notes how deep its stack of waiting calls becomes."""
import sys

from trace import Trace, over

sys.setrecursionlimit(10_000)
DEEPEST = 40
deepest = 1


def ackermann(m, n, depth=1):
    """The value, where `depth` calls wait for theirs, this one among them."""
    global deepest
    deepest = max(deepest, depth)
    if m == 0:
        return n + 1
    return ackermann(m - 1, 1 if n == 0 else ackermann(m, n - 1, depth + 1), depth)


trace = Trace(["m"] + over("value", range(4), range(3)) + over("waiting", range(1, DEEPEST + 1)) + ["depth"], {"m": 0})
for m in range(4):
    deepest = 1
    values = {f"value({m}, {n})": ackermann(m, n) for n in range(3)}
    # A place of the stack that was used is empty again in the end.
    trace.step({"m": m + 1, **values, **{f"waiting({d})": None for d in range(1, deepest + 1)}, "depth": 0})
trace.end()
