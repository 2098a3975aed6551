"""Termination detection on a ring of four machines: the algorithm, with a story of what the machines do."""
from trace import Trace, over

MACHINES = range(4)


def run(is_black, story):
    """`is_black` says whether a message from one machine to another blackens its sender."""
    active = [True] * 4
    colour = ["white"] * 4
    token, token_colour, detected = 3, "black", False
    trace = Trace(
        over("isActive", MACHINES) + over("colour", MACHINES) + ["token", "tokenColour", "detected", "broken"],
        {f"isActive({m})": True for m in MACHINES} | {f"colour({m})": "white" for m in MACHINES}
        | {"token": 3, "tokenColour": "black", "detected": False},
    )
    for action, m, *to in story:
        if action == "rest":
            assert active[m]
            active[m] = False
            updates = {f"isActive({m})": False}
        elif action == "send":
            assert active[m] and to[0] != m
            active[to[0]] = True
            updates = {f"isActive({to[0]})": True}
            if is_black(m, to[0]):
                colour[m] = "black"
                updates[f"colour({m})"] = "black"
        elif m == 0:
            assert token == 0 and (not active[0] or token_colour == "black")
            if token_colour == colour[0] == "white" and not active[0]:
                detected = True
                updates = {"detected": True}
            else:
                token, token_colour, colour[0] = 3, "white", "white"
                updates = {"token": 3, "tokenColour": "white", "colour(0)": "white"}
        else:
            assert token == m and (not active[m] or token_colour == "black")
            updates = {"token": m - 1, f"colour({m})": "white"}
            if colour[m] == "black":
                updates["tokenColour"] = token_colour = "black"
            token, colour[m] = m - 1, "white"
        trace.step(updates)
    assert detected
    return trace, any(active)


if __name__ == "__main__":
    trace, wrong = run(
        lambda sender, receiver: receiver > sender,
        [("rest", 3), ("rest", 1), ("rest", 2), ("pass", 3), ("pass", 2), ("pass", 1), ("pass", 0)]
        + [("pass", 3), ("send", 0, 3), ("rest", 0), ("pass", 2), ("pass", 1), ("pass", 0)]
        + [("rest", 3), ("pass", 3), ("pass", 2), ("pass", 1), ("pass", 0)],
    )
    assert not wrong
    trace.step({})
    trace.step({})
    trace.end()
