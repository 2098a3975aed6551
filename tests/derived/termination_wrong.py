"""The same algorithm, where a message to a machine behind the token blackens nobody."""
from termination import run

trace, wrong = run(
    lambda sender, receiver: receiver < sender,
    [("pass", 3), ("rest", 3), ("pass", 2), ("pass", 1), ("rest", 2), ("rest", 1), ("pass", 0)]
    + [("pass", 3), ("pass", 2), ("pass", 1), ("send", 0, 1), ("rest", 0), ("pass", 0)],
)
assert wrong
trace.clash("broken", 1, 2)
