"""All runs of a specification, by brute force."""
from typing import NamedTuple

import model

# What is tried for one text: scripts of a step, scripts in all, and states.
SCRIPTS, ALL_SCRIPTS, STATES = 400, 4000, 300


class Question(NamedTuple):
    text: str
    steps: int
    turns: int
    always: tuple
    within: tuple


class Brute:
    """All runs, by brute force."""

    def __init__(self, specification, question):
        self.specification, self.question = specification, question
        self.scale = model.Scale(specification)
        self.places = list(specification.locations())
        # The states of each depth, what leads to each, and for those that are stepped from what the step yields under each script.
        self.levels, self.origins, self.steps = [], {}, {}
        # The depth of the first step that goes wrong, or None; and whether brute force ended before the runs did.
        self.bad, self.cut = None, False
        self.wrong_first = False
        self.explore()

    def key(self, state):
        return tuple(state.get(place, "undef") for place in self.places)

    def state(self, key):
        return {place: value for place, value in zip(self.places, key) if place[1] is not None}

    def holds(self, test, state):
        return test is None or model.Step(self.specification, 1, []).term(test, {}, state) == "true"

    def explore(self):
        first = self.key(self.specification.initial())
        if not self.holds(self.question.always, self.state(first)):
            self.wrong_first = True
            return
        self.levels, self.origins, tried = [[first]], {first: None}, 0
        for depth in range(self.question.steps):
            level = [key for key in self.levels[depth] if self.holds(self.question.within, self.state(key))]
            listed = {}
            for key in level:
                try:
                    listed[key] = model.under_each_script(self.specification, self.question.turns, self.state(key), SCRIPTS)
                except model.TooMany:
                    listed = None
                    break
                tried += len(listed[key])
            if listed is None or tried > ALL_SCRIPTS or sum(map(len, self.levels)) > STATES:
                self.cut = True
                return
            self.steps.update(listed)
            self.levels.append(self.next_level(level, depth))
            if self.bad is not None or not self.levels[-1]:
                return

    def next_level(self, level, depth):
        """The new states, in the order in which they are found."""
        found = []
        for key in level:
            for result, asked in self.steps[key]:
                if model.fault(result):
                    self.bad = depth
                    continue
                after = self.key(model.fired(self.state(key), result[1]))
                if after in self.origins:
                    continue
                if not self.holds(self.question.always, self.state(after)):
                    self.bad = depth
                    continue
                self.origins[after] = (key, asked)
                found.append(after)
        return found

    def outcomes(self, key):
        return {model.outcome(self.scale, result) for result, _ in self.steps[key]}

    def is_quiet(self, key):
        return all(not model.fault(result) and self.key(model.fired(self.state(key), result[1])) == key for result, _ in self.steps[key])

    def choices_to(self, key):
        """The choices of the steps that lead to a state."""
        steps = []
        while self.origins[key] is not None:
            key, asked = self.origins[key]
            steps.insert(0, asked)
        return steps

    def depth(self):
        """Up to so many steps each run is known."""
        return len(self.levels) - 1

    def faults(self):
        """Why the steps go wrong that do first."""
        found = set()
        for key in self.levels[self.bad]:
            for result, _ in self.steps.get(key, []):
                if model.fault(result):
                    found.add(model.fault(result))
                elif not self.holds(self.question.always, model.fired(self.state(key), result[1])):
                    found.add("wrong")
        return found

    def counts(self):
        """The counts of a search that comes to an end."""
        levels = self.levels if self.levels[-1] or self.depth() == 0 else self.levels[:-1]
        followed = [key for level in levels for key in level if key in self.steps]
        outcomes = [len(self.outcomes(key)) for key in followed]
        return {
            "states": sum(map(len, levels)),
            "depth": len(levels) - 1,
            "outcomes": sum(outcomes),
            "widest": max(outcomes, default=0),
            "quiet": sum(map(self.is_quiet, followed)),
        }
