"""What asm-explore is to answer about one run of a specification, under a script: `choices` and `clash`, worked out by the model in model.py.

A choose that is asked has candidates, and takes the one that the script says. Each part of a `par` is asked, even where another one is
exhausted. What an assignment changes is followed through the sets of the step: a set has the values of each location, and here each value
has the assignments that give it.
"""
from typing import NamedTuple

import model
import reader

# A script has at most so many bytes, and a comment shows at most so many candidates.
LONGEST, MOST_SHOWN = 1_048_576, 64


def shown_path(path):
    return ".".join(map(str, path)) or "-"


def shown_place(place):
    return place[0] + (f"({', '.join(map(str, place[1]))})" if place[1] else "")


def shown_candidates(candidates, taken):
    """The first candidates, that which is taken in brackets, even if it isn't one of the first, and how many others there are."""
    words = [f"[{value}]" if number == taken else str(value) for number, value in enumerate(candidates)]
    shown, others = ", ".join(words[:MOST_SHOWN]), len(words) - MOST_SHOWN
    if taken >= MOST_SHOWN:
        shown, others = f"{shown}, .. {words[taken]}", others - 1
    return f"{shown}, and {others} more" if others > 0 else shown


def words_of(places, scale, result):
    """What is wrong with what a step yields, if anything is, with the location: of these, the first that is wrong."""
    kind, what = result
    if kind == "exhausted":
        return f"exhausted place {shown_path(what)}", None
    for place in places:
        values = what.get(place, ())
        if values and place[1] is None:
            return f"outside {place[0]}", place
        if len(values) > 1:
            least, greatest = scale.bounds(values)
            return f"clash {shown_place(place)} least {least} greatest {greatest}", place
    return None


# ---- scripts


class ScriptLine(NamedTuple):
    """What is taken as a line of a script says, which line it is, and how it is written."""

    number: int
    line: int
    text: str


def path_of(word):
    return () if word == "-" else tuple(map(int, word.split(".")))


class Script:
    """The lines of a script by step and path, with 0 for every step, and those that a choose has met: at its path, in its step or in any."""

    def __init__(self, text):
        self.lines, self.met = {}, set()
        for number, line in enumerate(text.split("\n"), 1):
            line = line.removesuffix("\r")
            if line and not line.startswith("#"):
                step, path, taken = line.split(" ")
                self.lines[0 if step == "*" else int(step), path_of(path)] = ScriptLine(int(taken), number, line)

    def number(self, step, path):
        """What a choose takes: as the line of the step says, or else the line of every step."""
        self.met.update([(step, path), (0, path)])
        line = self.lines.get((step, path)) or self.lines.get((0, path))
        return line.number if line else 0

    def unmet(self):
        return [line for at, line in self.lines.items() if at not in self.met]


# ---- one step, with what it asks and what it assigns


class Choice(NamedTuple):
    path: tuple
    offset: int
    name: str
    candidates: list
    number: int
    # The variable of each forall around it with its element, the outermost first.
    elements: tuple


class Assignment(NamedTuple):
    order: int
    path: tuple
    offset: int
    target: tuple
    value: object
    bound: list


class Sources(dict):
    """The values of a location in a set, each with the assignments that give it."""

    def __or__(self, other):
        return Sources({value: self.get(value, []) + other.get(value, []) for value in {**self, **other}}) if other else self

    def __ror__(self, none):
        return self


class ToldStep(model.Step):
    """One step under a script, with what is chosen and assigned, in the order of evaluation."""

    def __init__(self, specification, turns, script, step):
        super().__init__(specification, turns, [])
        self.script, self.step, self.choices, self.assigned = script, step, [], 0
        # The arguments of the target of the call whose body this is, which `result` stands for.
        self.given = []
        self.elements = ()

    def taken(self, rule, path, candidates):
        number = self.script.number(self.step, path) % len(candidates)
        self.choices.append(Choice(path, rule.offset, rule[1], candidates, number, self.elements))
        return candidates[number]

    def for_element(self, name, value, body, bound, state, path):
        around, self.elements = self.elements, (*self.elements, (name, value))
        result = super().for_element(name, value, body, bound, state, path)
        self.elements = around
        return result

    def arguments(self, target, bound, state):
        """Those of a target, outside the domain of its function too."""
        if target is None:
            return []
        return self.given if target[0] == "result" else [self.term(argument, bound, state) for argument in target[2]]

    def call_rule(self, rule, bound, state, path):
        given, self.given = self.given, self.arguments(rule[1], bound, state)
        result = super().call_rule(rule, bound, state, path)
        self.given = given
        return result

    def assign_rule(self, rule, bound, state, path):
        place, value, arguments = self.place(rule[1], bound, state), self.term(rule[2], bound, state), self.arguments(rule[1], bound, state)
        names = [(name, self.term(("name", name, []), bound, state)) for name in bound if name != "result"]
        self.assigned += 1
        return ("set", {place: Sources({value: [Assignment(self.assigned, path, rule.offset, (place[0], arguments), value, names)]})})


class Position:
    """Lines and columns in a text: both from 1, and a column for each character."""

    def __init__(self, text):
        self.text = text

    def of(self, offset):
        line, begin = self.text.count("\n", 0, offset), self.text.rfind("\n", 0, offset) + 1
        return f"line {line + 1}, column {offset - begin + 1}"


# ---- one run


class OneRun:
    """A run of at most so many steps under a script, or up to the first state of which a function says that something is wrong."""

    def __init__(self, text, script, steps=1000, turns=1000, wrong_in=lambda specification, state: None):
        self.specification = specification = reader.specification_of(text)
        places, scale = list(specification.locations()), model.Scale(specification)
        self.position, self.script = Position(text), Script(script)
        # The states; the choices of each step; what is wrong, with the set and the location.
        self.states, self.choices, self.fault, self.updates, self.place = [specification.initial()], [], None, {}, None
        self.steps, self.end = steps, f"limit after step {steps}"
        for step in range(1, steps + 2):
            state = self.states[-1]
            if wrong := wrong_in(specification, state):
                self.fault, self.steps, self.end = wrong, step - 1, f"fault after step {step - 1}: {wrong}"
                return
            if step > steps:
                return
            told = ToldStep(specification, turns, self.script, step)
            result = told.yields(state)
            self.choices += [(step, choice) for choice in told.choices]
            if wrong := words_of(places, scale, result):
                self.fault, self.place = wrong
                self.updates, self.steps, self.end = result[1], step, f"fault in step {step}: {self.fault}"
                return
            self.states.append(model.fired(state, result[1]))

    # The answers

    def comment(self, choice):
        return f"# {self.position.of(choice.offset)}: choose {choice.name}: {shown_candidates(choice.candidates, choice.number)}"

    def of_choices(self):
        """What `choices` prints, and its status."""
        lines = [f"# {self.end}"]
        for step, choice in self.choices:
            lines += [self.comment(choice), f"{step} {shown_path(choice.path)} {choice.number}"]
        unmet = self.script.unmet()
        lines += [f"# no choose met line {line.line} of the script: {line.text}" for line in unmet]
        return within(lines), 1 if self.fault else 6 if unmet else 0

    def of_clash(self):
        """What `clash` prints, and its status."""
        values = self.updates.get(self.place, {}) if self.place else {}
        found = sorted(one for of in values.values() for one in of)
        lines = [f"# {self.end}", *(self.assignment(one) for one in found)]
        return within(lines), 1 if self.fault else 0

    def assignment(self, one):
        names = "".join(f", {name} = {value}" for name, value in one.bound)
        return f"# {self.position.of(one.offset)}, place {shown_path(one.path)}: {shown_place(one.target)} := {one.value}{names}"


def within(lines):
    """The lines as a script, without its comments where they make it too long."""
    text = "".join(f"{line}\n" for line in lines)
    if len(text.encode()) <= LONGEST:
        return text
    return "".join(f"{line}\n" for line in lines if not line.startswith("#"))


def answered(command, text, script, steps=1000, turns=1000):
    """What a command prints, and its status."""
    run = OneRun(text, script, steps, turns)
    return run.of_choices() if command == "choices" else run.of_clash()
