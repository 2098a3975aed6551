"""The railroad crossing, worked out train by train: when each is seen, enters and leaves, and what the gate does."""
from trace import Trace, over

TRACKS = ["north", "south"]
STEPS = 16
# For each track the step in which a train is seen, enters and leaves. Step s has the time s - 1.
TRAINS = {"north": (2, 6, 8), "south": (4, 8, 11)}

trace = Trace(
    over("status", TRACKS) + over("deadline", TRACKS) + ["time", "gate", "violation"],
    {f"status({t})": "empty" for t in TRACKS} | {"time": 0, "gate": "opened"},
)
# A train needs three ticks at least, and the gate one to close: so it begins two ticks behind the first train that is seen.
closing = min(seen for seen, _, _ in TRAINS.values()) + 2
opening = max(left for _, _, left in TRAINS.values()) + 1
gate = {closing: "closing", closing + 1: "closed", opening: "opening", opening + 1: "opened"}
for step in range(1, STEPS + 1):
    updates = {"time": step}
    for track, (seen, entered, left) in TRAINS.items():
        assert entered >= seen + 3
        if step == seen:
            updates |= {f"status({track})": "coming", f"deadline({track})": step - 1 + 2}
        if step == entered:
            assert closing + 1 < entered
            updates[f"status({track})"] = "inCrossing"
        if step == left:
            updates |= {f"status({track})": "empty", f"deadline({track})": None}
    if step in gate:
        updates["gate"] = gate[step]
    trace.step(updates, len(TRACKS))
trace.end()
