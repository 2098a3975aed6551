"""The guard of a boiler: what two thermometers say in each step, and what it makes of that."""
from trace import Trace, over

SIDES = ["left", "right"]
ALWAYS = {"left": 61, "right": 63}
LOOSE = {4: {"left": 0}}

trace = Trace(over("reading", SIDES) + ["heater", "doubts"], {"heater": "resting", "doubts": 0})

for step in range(1, 7):
    said = ALWAYS | LOOSE.get(step, {})
    updates = {f"reading({side})": degrees for side, degrees in said.items()}
    if abs(said["left"] - said["right"]) > 5:
        updates |= {"heater": "locked"} if trace.state["doubts"] else {"doubts": 1}
    else:
        updates["doubts"] = 0
        if trace.state["heater"] != "locked" and max(said.values()) < 55:
            updates["heater"] = "heating"
        if trace.state["heater"] != "locked" and max(said.values()) > 70:
            updates["heater"] = "resting"
    trace.step(updates, len(SIDES))
trace.end()
