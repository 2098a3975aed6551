"""Two-phase commit: the messages and votes of a run in which one participant crashes."""
from trace import Trace, over

AGENTS = ["coordinator", "ann", "bob", "cem"]
PARTICIPANTS = AGENTS[1:]

trace = Trace(
    over("phase", AGENTS) + over("inbox", AGENTS) + over("vote", AGENTS) + ["patience", "broken"],
    {"phase(coordinator)": "start", "patience": 3} | {f"phase({p})": "idle" for p in PARTICIPANTS},
)


def send(message, phase):
    sent = {f"inbox({p})": message for p in PARTICIPANTS}
    trace.step(sent | {"phase(coordinator)": phase}, len(PARTICIPANTS))


send("prepare", "waiting")
trace.step({"vote(ann)": "yes", "phase(ann)": "ready"})
trace.step({"phase(bob)": "crashed"})
trace.step({"vote(cem)": "yes", "phase(cem)": "ready"})
for patience in [2, 1, 0]:
    trace.step({"patience": patience})
send("abort", "aborted")
trace.step({"phase(ann)": "aborted"})
trace.step({"phase(cem)": "aborted"})
trace.step({})
trace.end()
