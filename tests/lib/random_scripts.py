"""Random calls that make one run: a specification with all kinds of rules (bench/explore/random_texts.py), in a text with comments and line
feeds anywhere, and a script that is drawn from what its run asks, with lines that no choose meets and lines for every step. A third of the
runs are to end by a clash."""
import sys
from typing import NamedTuple

from program import ROOT

sys.path.append(str(ROOT / "bench" / "explore"))
from model import Named  # noqa: E402
from one_run import OneRun  # noqa: E402
from random_texts import Random, text_of, told  # noqa: E402

# How runs are to end, and how many specifications are looked at until the run of one does so.
ENDS = ["limit", "limit", "limit", "unmet", "exhausted", "outside", "clash", "clash", "clash"]
TRIES = 60
GAPS = [" "] * 30 + ["\n", "\n  ", "\t", " /* für */ ", " // €\n", "/**/\r\n"]


class Call(NamedTuple):
    """A text, a script, and the numbers of steps and turns."""

    text: str
    script: str
    steps: int
    turns: int

    def run(self):
        return OneRun(self.text, self.script, self.steps, self.turns)


def spaced(chance, text):
    """The text with other gaps between its tokens, and a line feed behind each item."""
    return "".join(chance.choice(GAPS) if byte == " " else byte for byte in text)


def number_text(chance, number):
    return "0" * chance.choice([0, 0, 0, 0, 0, 2]) + str(number)


def line_of(chance, step, path, number):
    """A line of a script, of which numbers may have zeros before them."""
    shown = ".".join(number_text(chance, part) for part in path) or "-"
    return f"{number_text(chance, step) if step else '*'} {shown} {number_text(chance, number)}"


def astray(chance, path):
    """A path near one that is asked."""
    how = chance.randrange(3)
    if how == 0 or not path:
        return (*path, chance.randrange(3))
    return path[:-1] if how == 1 else (*path[:-1], path[-1] + chance.choice([1, 2, 5]))


def script_of(chance, asked, steps):
    """A script for a run that asks this, as it is found without one."""
    lines = {}
    for step, choice in asked:
        if chance.random() < 0.6:
            lines[step, choice.path] = chance.randrange(chance.choice([len(choice.candidates), 9]))
        if chance.random() < 0.15:
            lines[0, choice.path] = chance.randrange(4)
        if chance.random() < 0.1:
            lines[chance.choice([0, step, steps + 1]), astray(chance, choice.path)] = chance.randrange(4)
    if chance.random() < 0.1:
        lines[chance.choice([0, 1]), chance.choice([(), (0,), (1, 0)])] = 1
    made = [line_of(chance, step, path, number) for (step, path), number in lines.items()]
    made += chance.sample(["# 1 - 0", "", "#"], chance.choice([0, 0, 1, 2]))
    chance.shuffle(made)
    end = chance.choice(["\n", "\n", "\n", "\r\n"])
    return end.join(made) + chance.choice(["", end]) if made else ""


def kind_of(run):
    """How a run ends, and what of the script it doesn't meet."""
    return run.fault.split(" ")[0] if run.fault else "unmet" if run.script.unmet() else "limit"


def text_in(chance, end):
    """A random specification, of which rules beside each other mostly update one location where its run is to end so."""
    made = Random(chance)
    if end in ("outside", "clash"):
        made.wild = chance.choice([0.15, 0.3, 0.5])
    specification = made.specification()
    if end == "clash" and chance.random() < 0.5:
        specification = written_over(chance, specification)
    return spaced(chance, text_of(specification, chance))


def written_over(chance, specification):
    """The same with a sequence around it, whose updates may be written over, and one beside them all. Some are made by a rule, of whose
    parameters one stands for what changes."""
    name = chance.choice(list(specification.controlled))
    domain = specification.controlled[name].domain
    here = ("name", name, [("constant", chance.choice(specification.universes[universe].values or [0])) for universe in domain])
    v, w = ("name", "v", []), ("name", "w", [])
    main, first, more = specification.rules["M"].body, ("assign", here, ("constant", 5)), ("+", here, ("constant", 1))
    written = chance.choice([("assign", here, w), ("seq", [("assign", here, w), ("assign", here, w)]), ("let", "v", w, ("assign", here, v))])
    body = ("seq", [first, *chance.sample([("call", None, "W", [here, more]), main], chance.choice([1, 2, 2]))])
    if chance.random() < 0.7:
        body = ("par", chance.sample([body, ("assign", here, ("constant", chance.choice([0, 6])))], 2))
    rules = {"M": Named([], body, f"rule M = {told(body)}"), "W": Named(["v", "w"], written, f"rule W(v, w) = {told(written)}")}
    return specification._replace(rules={**specification.rules, **rules})


def call_of(chance):
    """A random call. Its run ends in some way, and asks something, if there is one among those that are looked at."""
    end, best = chance.choice(ENDS), None
    for _ in range(TRIES):
        steps = chance.choice([0, 1, 2, 3, 5, 8, 12])
        bare = Call(text_in(chance, end), "", steps, chance.choice([2, 3, 4, 6]))
        # What is asked under one script may not be under another, so a script is made of two runs.
        first = bare._replace(script=script_of(chance, bare.run().choices, steps))
        made = first._replace(script=script_of(chance, first.run().choices, steps))
        run = made.run()
        if kind_of(run) == end:
            best = made
            if run.choices:
                break
    return best or made
