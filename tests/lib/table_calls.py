"""Calls of `asm-explore show`: those whose answers stand beside the texts, and others for random specifications, with all kinds of rules or with
many locations whose names and values have many lengths."""
import itertools
import sys
from typing import NamedTuple

from program import HEAD, ROOT
from random_scripts import call_of
from random_texts import shown as shown_term
from runs import EXAMPLES, asked_by

sys.path.append(str(ROOT / "bench" / "explore"))
import reader  # noqa: E402
from because import listed  # noqa: E402
from one_run import shown_place  # noqa: E402
from run_table import Asked  # noqa: E402


class Call(NamedTuple):
    """A text, which is one of the examples or comes on standard input, with its script and what is asked for."""

    spec: str
    text: str
    script: str
    asked: Asked

    def words(self):
        given = ["--steps", str(self.asked.steps), "--turns", str(self.asked.turns), "--width", str(self.asked.width)]
        given += [f"--always={condition}" for condition in self.asked.always]
        return ["show", self.spec, *given, *(f"--only={name}" for name in self.asked.only)]


def example_call(run):
    asked = asked_by(run.words)
    script = (EXAMPLES / asked.script).read_text() if asked.script else ""
    shown = Asked(asked.steps, asked.turns, tuple(asked.always), tuple(asked.only), asked.width)
    return Call(run.text, (EXAMPLES / run.text).read_text(), script, shown)


# ---- random specifications


def condition_of(chance, states):
    """A condition that isn't true in a state of the run, and maybe in others, with a part that may not be so."""
    facts = list(chance.choice(states).items())
    facts = chance.sample(facts, min(len(facts), chance.choice([1, 1, 2, 3])))
    equal = [("=", ("name", name, [("constant", one) for one in arguments]), ("constant", value)) for (name, arguments), value in facts]
    test = f"not ({' and '.join(map(shown_term, equal))})"
    return chance.choice([test, test, f"({test} or 1 < 0)", f"(forall m in U holds {test} or m < -9)", f"not (exists m in E with not ({test}))"])


def names_of(chance, specification, places):
    """Names of functions and of locations, some of which say the same twice."""
    if chance.random() < 0.3:
        return list(specification.controlled)
    known = [place for place in specification.locations() if place[1] is not None]
    changing = [place for place in known if place in places] or known
    taken = [chance.choice(chance.choice([known, changing])) for _ in range(chance.choice([1, 1, 2, 3, 5]))]
    return [chance.choice([place[0], shown_place(place)]) for place in taken]


def random_call(chance):
    """A random call, whose run asks something in most."""
    made = call_of(chance)
    specification, run = reader.specification_of(made.text), made.run()
    changed = {place for state in run.states for place in state if state[place] != run.states[0][place]}
    always = tuple(condition_of(chance, run.states) for _ in range(chance.choice([0, 0, 0, 1, 1, 2])))
    only = tuple(names_of(chance, specification, changed)) if chance.random() < 0.3 and run.states[0] else ()
    width = chance.choice([*range(40, 60), 40, 40, 40, 45, 50, 70, 80, 100, 100, 100, 10_000])
    return Call("-", made.text, made.script, Asked(made.steps, made.turns, always, only, width))


def wide_text(chance, steps):
    """A random specification with many locations, whose names and values have many lengths, and with choices in foralls."""
    elements = [letter * chance.choice([1, 2, 5, 9, 17]) for letter in "abcdefgh"[: chance.choice([2, 3, 8])]]
    first = chance.choice([-9, 1, 98])
    universes = {"E": elements, "U": range(first, first + chance.choice([1, 2, 5, 12]))}
    names = [letter * chance.choice([1, 1, 2, 6, 12, 25, 45]) for letter in "zyxwvkjl"[: chance.choice([2, 5, 8])]]
    domains = {name: chance.choice([[], [], ["U"], ["E"], ["E", "U"]]) for name in names}
    places = [(name, arguments) for name, domain in domains.items() for arguments in itertools.product(*(universes[one] for one in domain))]
    values = [*elements, "undef", "true", "0", "7", "-12", "100000000000000000"]

    def moves(step):
        often = chance.choice([0, 0.2, 0.5])
        changed = [f"{name}{listed(list(map(str, given)))} := {chance.choice(values)}" for name, given in places if chance.random() < often]
        return f"if t = {step} then par skip {' '.join(changed)} endpar endif"

    declared = f"enum E = {{ {', '.join(elements)} }}\nuniverse U = {universes['U'][0]} .. {universes['U'][-1]}\nfunction controlled t initially 0\n"
    declared += "".join(f"function controlled {name}{' : ' * bool(domain)}{' * '.join(domain)}\n" for name, domain in domains.items())
    one = "choose c in E do skip endchoose"
    chosen = [one, "choose number in U do skip endchoose", f"forall i in U do {one} endforall"]
    chosen.append(f"forall i in U do forall element in E do par {one} {one} endpar endforall endforall")
    parts = [*chance.sample(chosen, chance.choice([0, 1, 2])), *map(moves, range(steps))]
    return f"{HEAD}{declared}rule M = par t := t + 1 {' '.join(parts)} endpar\n"


def wide_call(chance):
    """A random call for one of these, under a script of a few lines."""
    steps = chance.choice([0, 1, 2, 3])
    text = wide_text(chance, steps)
    script = "".join(f"{step} {path} {chance.randrange(9)}\n" for step in ("*", 1, 2) for path in ("1", "2", "1.0", "2.1") if chance.random() < 0.3)
    only = ("t",) if chance.random() < 0.05 else ()
    return Call("-", text, script, Asked(steps, 1000, (), only, chance.choice([*range(40, 130), 300, 10_000])))
