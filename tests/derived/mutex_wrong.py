"""Two processes that test before they raise their flags, moved by turns."""
from trace import Trace, over

PROCESSES = range(2)
trace = Trace(
    over("stage", PROCESSES) + over("flag", PROCESSES) + ["broken"],
    {f"stage({p})": "resting" for p in PROCESSES} | {f"flag({p})": False for p in PROCESSES},
)
tested = lambda p: {f"stage({p})": "tested"}
entered = lambda p: {f"stage({p})": "critical", f"flag({p})": True}
for updates in [tested(0), tested(1), entered(0), entered(1)]:
    trace.step(updates)
trace.clash("broken", 1, 2)
