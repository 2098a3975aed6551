"""What `asm-explore random` is to answer, worked out by the model in model.py: the numbers that are drawn, the runs, the first one that goes
wrong, and that one made shorter.

A draft has for each step the numbers that its chooses take, by their paths; where there is none, it is 0. What the step from a state comes to
is kept as a tree of the chooses that it asks, so that it is evaluated once for all runs that choose alike.
"""
import hashlib
from typing import NamedTuple, Optional

import model
import reader
from because import Reasons
from one_run import shown_path, within, words_of

# So many steps are made for shortening a run.
MOST_STEPS = 10_000_000

# So many scripts of a step are tried, to see whether it changes nothing.
MOST_SCRIPTS = 100_000

# So many bytes of a condition are shown.
SHOWN = 200

DEADLOCK = "deadlock"


class Source(NamedTuple):
    """What numbers are drawn from: a seed, and the number of a run from 0."""

    seed: int
    run: int

    def candidate(self, step, path, candidates):
        """The number that is drawn for the choose at this path, of so many candidates."""
        digest = hashlib.sha256(b"".join(number.to_bytes(8, "big") for number in (self.seed, self.run, step, *path))).digest()
        return int.from_bytes(digest[:8], "big") * candidates >> 64


class Asked:
    """A choose that is asked, of so many candidates, and what comes behind each number that was picked."""

    __slots__ = ("path", "candidates", "behind")

    def __init__(self, path, candidates):
        self.path, self.candidates, self.behind = path, candidates, {}


class Ends(NamedTuple):
    """What a step comes to: words for the fault, if there is one, and the number of the next state, if there is one."""

    fault: Optional[str]
    state: Optional[int]


class Wrong(NamedTuple):
    """The step in which a run goes wrong, and words for the fault. A deadlock is the state that the step begins in."""

    step: int
    fault: str

    def shown_after(self):
        """By so many steps the fault is seen."""
        return self.step - (self.fault == DEADLOCK)

    def said(self):
        place = "after" if self.fault == DEADLOCK or self.fault.startswith("condition") else "in"
        return f"fault {place} step {self.shown_after()}: {self.fault}"

    def is_like(self, other):
        """Whether the one is a deadlock if the other is, and only then."""
        return (self.fault == DEADLOCK) == (other.fault == DEADLOCK)


class Broken(str):
    """Words for a condition that isn't true, with the line that says why."""

    def __new__(cls, words, because):
        made = super().__new__(cls, words)
        made.because = because
        return made


class Drawn(NamedTuple):
    """A run that was drawn: its draft, how many steps were made, and whether the last one went wrong."""

    draft: list
    steps: int
    is_wrong: bool


class Picking(model.Step):
    """One step, in which a choose takes the number that a function picks for its path and its candidates."""

    def __init__(self, specification, turns, pick):
        super().__init__(specification, turns, [])
        self.pick = pick

    def taken(self, rule, path, candidates):
        number = self.pick(path, len(candidates))
        self.asked.append((path, number, len(candidates)))
        return candidates[number]


class Machine:
    """The runs of a specification, what is to be true in each state, and what in each that the step leaves as it is, whatever is chosen."""

    def __init__(self, text, turns=1000, always=(), when_quiet=None):
        self.specification, self.turns = reader.specification_of(text), turns
        self.places, self.scale = list(self.specification.locations()), model.Scale(self.specification)
        self.always = [reader.term_of(condition) for condition in always]
        self.when_quiet, self.dead = when_quiet and reader.term_of(when_quiet), {}
        # The states that were reached, the number of each, what isn't true in it, and the tree of the step from it.
        self.states, self.numbers, self.broken, self.trees = [], {}, [], {}
        self.reach(self.specification.initial())

    def reach(self, state):
        """The number of a state."""
        key = tuple(state[place] for place in self.places if place[1] is not None)
        if key not in self.numbers:
            self.numbers[key] = len(self.states)
            self.states.append(state)
            self.broken.append(self.broken_in(state))
        return self.numbers[key]

    def broken_in(self, state):
        """The first of the conditions that isn't true, in words."""
        for number, term in enumerate(self.always, 1):
            value = model.Step(self.specification, self.turns, []).term(term, {}, state)
            if value != "true":
                return Broken(f"condition {number} is {value}", Reasons(self.specification, state).because(term))
        return None

    def ends(self, state, result):
        """What a step from the state with this number comes to that yields this."""
        if wrong := words_of(self.places, self.scale, result):
            return Ends(wrong[0], None)
        after = self.reach(model.fired(self.states[state], result[1]))
        stuck = DEADLOCK if after == state and self.is_deadlock(state) else None
        return Ends(self.broken[after] or stuck, after)

    def is_deadlock(self, number):
        """Whether the step from the state with this number changes nothing, whatever is chosen, and a run may not stay in it."""
        if number not in self.dead:
            self.dead[number] = self.when_quiet is not None and self.is_stuck(self.states[number])
        return self.dead[number]

    def is_stuck(self, state):
        if model.Step(self.specification, self.turns, []).term(self.when_quiet, {}, state) == "true":
            return False
        results = model.under_each_script(self.specification, self.turns, state, MOST_SCRIPTS)
        return all(not model.fault(result) and model.fired(state, result[1]) == state for result, _ in results)

    def step(self, state, pick):
        """The path and the number of each choose that the step from the state with this number asks, and what it comes to."""
        asked, node = [], self.trees.get(state)
        while isinstance(node, Asked):
            number = pick(node.path, node.candidates)
            asked.append((node.path, number))
            node = node.behind.get(number)
        return (asked, node) if node else self.evaluated(state, pick)

    def evaluated(self, state, pick):
        """The same, and puts it into the tree."""
        made = Picking(self.specification, self.turns, pick)
        ends = self.ends(state, made.yields(self.states[state]))
        behind, number = self.trees, state
        for path, picked, candidates in made.asked:
            behind, number = behind.setdefault(number, Asked(path, candidates)).behind, picked
        behind[number] = ends
        return [(path, picked) for path, picked, _ in made.asked], ends

    def drawn(self, source, steps):
        """A run of at most so many steps. It ends where it goes wrong, and where a step asks nothing and changes nothing."""
        draft, state = [], 0
        for step in range(1, steps + 1):
            asked, ends = self.step(state, lambda path, candidates: source.candidate(step, path, candidates))
            draft.append({path: number for path, number in asked if number})
            if ends.fault or not asked and ends.state == state:
                return Drawn(draft, step, ends.fault is not None)
            state = ends.state
        return Drawn(draft, steps, False)

    def wrong_under(self, draft, steps):
        """How the run of so many steps under a draft goes wrong, or None."""
        state, none = 0, {}
        for step in range(1, steps + 1):
            numbers = draft[step - 1] if step <= len(draft) else none
            _, ends = self.step(state, lambda path, candidates: numbers.get(path, 0) % candidates)
            if ends.fault:
                return Wrong(step, ends.fault)
            state = ends.state
        return None

    def made(self, draft, steps):
        """The path and the number of each choose that so many steps of the run under a draft ask, step by step."""
        state, none = 0, {}
        for step in range(1, steps + 1):
            numbers = draft[step - 1] if step <= len(draft) else none
            asked, ends = self.step(state, lambda path, candidates: numbers.get(path, 0) % candidates)
            yield asked
            state = ends.state


# ---- what is left out of the first steps of a draft


def without_steps(draft, first, last):
    return draft[:first] + draft[last:]


def without_lines(draft, first, last):
    return [{} if first <= step < last else numbers for step, numbers in enumerate(draft)]


def without_line(draft, step, line):
    """The draft without one line of a step, those of which are in the order of their paths."""
    if step >= len(draft):
        return draft
    kept = [one for place, one in enumerate(sorted(draft[step].items())) if place != line]
    return [*draft[:step], dict(kept), *draft[step + 1 :]]


class Short:
    """A run that goes wrong, made shorter: blocks of steps are left out, from the whole run on by halves, or else their lines; then each line.
    This is done until nothing changes."""

    def __init__(self, machine, draft, wrong):
        self.machine, self.draft, self.wrong = machine, draft, wrong
        self.left, self.is_shortest = MOST_STEPS, True
        before = None
        while self.is_shortest and before != (before := self.size()):
            self.once()
            self.is_shortest = self.left > 0

    def size(self):
        return self.wrong.step, sum(map(len, self.draft[: self.wrong.step]))

    def attempt(self, without, *what):
        """Leaves something out, if the run still goes wrong, and in no later step: by a deadlock if it did, and else by another fault."""
        steps = self.wrong.step
        if self.left < steps:
            self.left = 0
            return
        self.left -= steps
        draft = without(self.draft[:steps], *what)
        wrong = self.machine.wrong_under(draft, min(len(draft), steps))
        if wrong and wrong.is_like(self.wrong):
            self.draft, self.wrong = draft, wrong

    def once(self):
        size = self.wrong.step
        while size:
            self.leave_blocks(size)
            size //= 2
        for step in reversed(range(self.wrong.step)):
            lines = len(self.draft[step]) if step < len(self.draft) else 0
            for line in reversed(range(lines)):
                self.attempt(without_line, step, line)

    def leave_blocks(self, size):
        last = self.wrong.step
        while last > 0:
            first = max(last - size, 0)
            self.attempt(without_steps, first, last)
            if any(self.draft[first:last]):
                self.attempt(without_lines, first, last)
            last = min(first, self.wrong.step)


# ---- answers


class Question(NamedTuple):
    """What is looked for."""

    steps: int = 1000
    turns: int = 1000
    always: tuple = ()
    when_quiet: Optional[str] = None
    runs: int = 1000
    seed: int = 0


class Found(NamedTuple):
    """What random runs come to: how many runs and steps were made; the number of the bad run, and it as it was drawn and when it is short,
    unless it is the first state that is bad."""

    runs: int
    steps: int
    run: Optional[int] = None
    drawn: Optional[Wrong] = None
    short: Optional[Short] = None


def found_by(machine, question):
    """What random runs come to, where the first state is right."""
    steps = 0
    for run in range(question.runs):
        drawn = machine.drawn(Source(question.seed, run), question.steps)
        steps += drawn.steps
        if drawn.is_wrong:
            wrong = machine.wrong_under(drawn.draft, question.steps)
            return Found(run + 1, steps, run, wrong, Short(machine, drawn.draft, wrong))
    return Found(question.runs, steps)


def script_of(machine, short):
    """The lines of the script of a run: of the choices that lead to its fault, but for those of first candidates."""
    for step, asked in enumerate(machine.made(short.draft, short.wrong.shown_after()), 1):
        yield from (f"{step} {shown_path(path)} {number}" for path, number in asked if number)


def shown(condition):
    return condition if len(condition) <= SHOWN else f"{condition[:SHOWN]} .."


def facts(question, found, *first):
    """What stands in the comments of an answer, but for the call of asm. The first of them are given."""
    yield from first
    for number, condition in enumerate(question.always, 1):
        yield f"condition {number}: {shown(condition)}"
    if question.when_quiet is not None:
        yield f"deadlock unless: {shown(question.when_quiet)}"
    looked_for = [f"condition {number}" for number in range(1, len(question.always) + 1)] + [DEADLOCK] * (question.when_quiet is not None)
    yield f"looked for: {', '.join(['clash', 'outside', 'exhausted', *looked_for])}"
    yield f"seed {question.seed}"
    yield f"runs {found.runs}"
    yield f"steps {found.steps}"
    if found.run is not None:
        yield f"run {found.run}"
        if found.short is not None and not found.short.is_shortest:
            yield "it may be longer than it need be"


class Answer(NamedTuple):
    """The comments, the lines of the script, and what random runs come to."""

    comments: list
    lines: list
    found: Found

    def text(self, trace="", table=()):
        """The whole output, perhaps with the trace of the run that was found, and above it the comments of its table."""
        return within([*(f"# {one}" for one in self.comments), *table, *(f"# {one}" for one in trace.splitlines()), *self.lines])


def answer_to(machine, question, spec="-"):
    """What is answered for the specification in a file of this name."""
    if machine.broken[0]:
        found = Found(0, 0, 0)
        return answer_of(question, found, Wrong(0, machine.broken[0]), [], spec)
    found = found_by(machine, question)
    if found.run is None:
        none = f"no fault in {question.runs} runs of at most {question.steps} steps"
        return Answer(list(facts(question, found, none)), [], found)
    return answer_of(question, found, found.short.wrong, list(script_of(machine, found.short)), spec)


def answer_of(question, found, wrong, lines, spec):
    """What is answered for a run that goes wrong, with the lines of its script."""
    turns = f" --turns {question.turns}" if question.turns != 1000 else ""
    call = f"asm --steps {wrong.shown_after()} --script THIS{turns}" + (f" {spec}" if spec != "-" else "")
    because = [wrong.fault.because] if isinstance(wrong.fault, Broken) else []
    comments = [*facts(question, found, wrong.said(), *because), call]
    return Answer([one.replace("\n", " ") for one in comments], lines, found)
