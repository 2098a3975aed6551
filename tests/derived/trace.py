"""Writes traces as docs/REFERENCE.md describes them: steps with their updates, the end, the state."""
import itertools


def over(name, *universes):
    """The locations of a function, in order."""
    if not universes:
        return [name]
    return [f"{name}({', '.join(map(str, arguments))})" for arguments in itertools.product(*universes)]


def written(value):
    if value is None:
        return "undef"
    return str(value).lower() if isinstance(value, bool) else str(value)


class Trace:
    """The locations are those of all functions, in the order of the declarations."""

    def __init__(self, locations, initial):
        self.positions = {location: position for position, location in enumerate(locations)}
        self.state = dict(initial)
        self.steps = 0

    def lines(self, contents, sign):
        for location in sorted(contents, key=self.positions.__getitem__):
            print(location, sign, written(contents[location]))

    def step(self, updates, instances=0):
        self.steps += 1
        print(f"step {self.steps} instances {instances}")
        self.lines(updates, ":=")
        self.state.update(updates)

    def end(self):
        self.last("limit")

    def clash(self, location, least, greatest):
        self.last(f"clash step {self.steps + 1} {location} least {written(least)} greatest {written(greatest)}")

    def last(self, end):
        print("end", end)
        print("state")
        self.lines({location: value for location, value in self.state.items() if value is not None}, "=")
