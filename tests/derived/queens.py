"""Eight queens by a plain search with backtracking. Its result is the first solution of all permutations."""
import itertools

from trace import Trace, over

ROWS = range(1, 9)
trace = Trace(over("column", ROWS) + ["row"] + over("least", ROWS), {"row": 1} | {f"least({r})": 1 for r in ROWS})


def is_free(queens, column):
    row = len(queens)
    return all(column != other and abs(column - other) != row - r for r, other in enumerate(queens))


def search(queens):
    """Whether the queens that stand can be added to, so that there are eight; each move is a step."""
    row = len(queens) + 1
    if row > 8:
        first = next(p for p in itertools.permutations(ROWS) if all(is_free(p[:r], p[r]) for r in range(8)))
        return tuple(queens) == first
    for column in ROWS:
        if is_free(queens, column):
            trace.step({f"column({row})": column, f"least({row})": column + 1, "row": row + 1})
            if search(queens + [column]):
                return True
    trace.step({f"least({row})": 1, f"column({row - 1})": None, "row": row - 1})
    return False


assert search([])
trace.end()
