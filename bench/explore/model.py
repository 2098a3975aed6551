"""A model of the language: what the step from a state yields under each script. It follows docs/REFERENCE.md, and no crate.

Values are numbers, and texts for all others: undef, true, false and elements. A term is a tuple that begins with its kind, and so is a
rule. A location is a function's name with its arguments, or with None where they are outside its domain. What a step yields is a set of
updates, which has the values of each location, or the path where it is exhausted.
"""
from typing import NamedTuple


class Universe(NamedTuple):
    values: list
    text: str


class Function(NamedTuple):
    domain: list
    initial: dict
    text: str


class Named(NamedTuple):
    """A rule or a derived function."""

    parameters: list
    body: tuple
    text: str


class Specification(NamedTuple):
    universes: dict
    controlled: dict
    static: dict
    derived: dict
    rules: dict
    main: str

    def elements(self):
        return [value for universe in self.universes.values() for value in universe.values if isinstance(value, str)]

    def locations(self):
        """The locations in their order, each function's behind its last one the one outside."""
        for name, function in self.controlled.items():
            for arguments in lists(self, function.domain):
                yield (name, arguments)
            yield (name, None)

    def initial(self):
        return {place: self.controlled[place[0]].initial.get(place[1], "undef") for place in self.locations() if place[1] is not None}


def lists(specification, domain):
    found = [()]
    for universe in domain:
        found = [(*front, value) for front in found for value in specification.universes[universe].values]
    return found


def truth(so):
    return "true" if so else "false"


def applied(operation, left, right):
    if operation == "=":
        return truth(left == right)
    if operation == "!=":
        return truth(left != right)
    if operation in ("and", "or"):
        if left not in ("true", "false") or right not in ("true", "false"):
            return "undef"
        return truth((left == "true" and right == "true") if operation == "and" else (left == "true" or right == "true"))
    if not isinstance(left, int) or not isinstance(right, int):
        return "undef"
    if operation in ("<", "<=", ">", ">="):
        return truth({"<": left < right, "<=": left <= right, ">": left > right, ">=": left >= right}[operation])
    if operation in ("div", "mod"):
        if right == 0:
            return "undef"
        rest = left % abs(right)
        return rest if operation == "mod" else (left - rest) // right
    return {"+": left + right, "-": left - right, "*": left * right}[operation]


def united(first, second):
    """Two results beside each other."""
    exhausted = [result for kind, result in (first, second) if kind == "exhausted"]
    if exhausted:
        return ("exhausted", min(exhausted))
    return ("set", {place: first[1].get(place, frozenset()) | second[1].get(place, frozenset()) for place in {**first[1], **second[1]}})


def bind(bound, name, value):
    """The names with one more, which stands before the others, and hides the one that is called so."""
    return {name: value, **{other: of for other, of in bound.items() if other != name}}


def is_consistent(updates):
    return all(place[1] is not None and len(values) == 1 for place, values in updates.items())


def fired(state, updates):
    return {**state, **{place: next(iter(values)) for place, values in updates.items()}}


class Step:
    """One step under a script that picks these numbers, in the order in which it is asked, and then the first candidates."""

    def __init__(self, specification, turns, picks):
        self.specification, self.turns, self.picks = specification, turns, picks
        # What was asked: each path, the number that was picked, and of how many.
        self.asked = []

    def yields(self, state):
        return self.rule(self.specification.rules[self.specification.main].body, {}, state, ())

    def taken(self, rule, path, candidates):
        """The candidate that a choose takes."""
        number = self.picks[len(self.asked)] if len(self.asked) < len(self.picks) else 0
        self.asked.append((path, number, len(candidates)))
        return candidates[number]

    def term(self, term, bound, state):
        kind = term[0]
        if kind == "constant":
            return term[1]
        if kind == "(":
            return self.term(term[1], bound, state)
        if kind == "name":
            return self.named(term[1], term[2], bound, state)
        if kind == "result":
            return self.content(bound["result"], state)
        if kind == "not":
            value = self.term(term[1], bound, state)
            return {"true": "false", "false": "true"}.get(value, "undef") if isinstance(value, str) else "undef"
        if kind == "minus":
            value = self.term(term[1], bound, state)
            return -value if isinstance(value, int) else "undef"
        if kind in ("exists", "forall"):
            _, name, universe, test = term
            values = self.specification.universes[universe].values
            held = [self.term(test, {**bound, name: value}, state) == "true" for value in values]
            return truth(any(held) if kind == "exists" else all(held))
        return applied(kind, self.term(term[1], bound, state), self.term(term[2], bound, state))

    def named(self, name, arguments, bound, state):
        if name in bound:
            value = bound[name]
            return self.term(value[0], value[1], state) if isinstance(value, tuple) else value
        values = tuple(self.term(argument, bound, state) for argument in arguments)
        if name in self.specification.controlled:
            return self.content((name, values), state)
        if name in self.specification.static:
            return self.specification.static[name].initial.get(values, "undef")
        if name in self.specification.derived:
            derived = self.specification.derived[name]
            return self.term(derived.body, dict(zip(derived.parameters, values)), state)
        return name

    def content(self, place, state):
        return state.get(place, "undef")

    def place(self, target, bound, state):
        if target[0] == "result":
            return bound["result"]
        _, name, arguments = target
        values = tuple(self.term(argument, bound, state) for argument in arguments)
        return (name, values if (name, values) in state else None)

    def holds(self, test, bound, state):
        return test is None or self.term(test, bound, state) == "true"

    def rule(self, rule, bound, state, path):
        return getattr(self, rule[0] + "_rule")(rule, bound, state, path)

    def skip_rule(self, rule, bound, state, path):
        return ("set", {})

    def assign_rule(self, rule, bound, state, path):
        _, target, term = rule
        return ("set", {self.place(target, bound, state): frozenset([self.term(term, bound, state)])})

    def par_rule(self, rule, bound, state, path):
        all_of = ("set", {})
        for number, part in enumerate(rule[1]):
            all_of = united(all_of, self.rule(part, bound, state, (*path, number)))
        return all_of

    def if_rule(self, rule, bound, state, path):
        _, test, yes, no = rule
        if self.holds(test, bound, state):
            return self.rule(yes, bound, state, (*path, 0))
        return self.rule(no, bound, state, (*path, 1)) if no else ("set", {})

    def let_rule(self, rule, bound, state, path):
        _, name, term, body = rule
        return self.rule(body, bind(bound, name, self.term(term, bound, state)), state, (*path, 0))

    def forall_rule(self, rule, bound, state, path):
        _, name, universe, test, body = rule
        all_of = ("set", {})
        for number, value in enumerate(self.specification.universes[universe].values):
            inner = bind(bound, name, value)
            if self.holds(test, inner, state):
                all_of = united(all_of, self.for_element(name, value, body, inner, state, (*path, number)))
        return all_of

    def for_element(self, name, value, body, bound, state, path):
        """What a forall yields for one element."""
        return self.rule(body, bound, state, path)

    def choose_rule(self, rule, bound, state, path):
        _, name, universe, test, body, none = rule
        values = self.specification.universes[universe].values
        candidates = [value for value in values if self.holds(test, {**bound, name: value}, state)]
        if not candidates:
            return self.rule(none, bound, state, (*path, 1)) if none else ("set", {})
        value = self.taken(rule, path, candidates)
        return self.rule(body, bind(bound, name, value), state, (*path, 0))

    def call_rule(self, rule, bound, state, path):
        _, target, name, arguments = rule
        called = self.specification.rules[name]
        inner = {parameter: (argument, bound) for parameter, argument in zip(called.parameters, arguments)}
        if target is not None:
            inner["result"] = self.place(target, bound, state)
        return self.rule(called.body, inner, state, (*path, 0))

    def seq_rule(self, rule, bound, state, path):
        so_far = {}
        for number, part in enumerate(rule[1]):
            kind, result = self.rule(part, bound, fired(state, so_far), (*path, number))
            if kind == "exhausted":
                return (kind, result)
            so_far.update(result)
            if not is_consistent(result):
                break
        return ("set", so_far)

    def iterate_rule(self, rule, bound, state, path):
        return self.turns_of(lambda now, at: self.rule(rule[1], bound, now, at), state, path)

    def while_rule(self, rule, bound, state, path):
        _, test, body = rule
        return self.turns_of(lambda now, at: self.if_rule(("if", test, body, None), bound, now, at), state, path)

    def turns_of(self, turn, state, path):
        so_far = {}
        for number in range(self.turns):
            kind, result = turn(fired(state, so_far), (*path, number))
            if kind == "exhausted":
                return (kind, result)
            so_far.update(result)
            if not result or not is_consistent(result):
                return ("set", so_far)
        return ("exhausted", path)


class TooMany(Exception):
    """There are more scripts than are to be tried."""


def under_each_script(specification, turns, state, most):
    """What the step yields under each script, with the choices that it asks for: brute force, one evaluation for each."""
    found, picks = [], []
    while True:
        step = Step(specification, turns, picks)
        result = step.yields(state)
        found.append((result, step.asked))
        if len(found) > most:
            raise TooMany
        picks = [number for _, number, _ in step.asked]
        while picks and picks[-1] + 1 == step.asked[len(picks) - 1][2]:
            picks.pop()
        if not picks:
            return found
        picks[-1] += 1


class Scale:
    """The order of values, in which traces show the least and the greatest."""

    def __init__(self, specification):
        self.rank = {element: k for k, element in enumerate(specification.elements())}

    def key(self, value):
        if isinstance(value, int):
            return (3, value)
        return ({"undef": 0, "false": 1, "true": 2}.get(value, 4), self.rank.get(value, 0))

    def bounds(self, values):
        ordered = sorted(values, key=self.key)
        return ordered[0], ordered[-1]


def outcome(scale, result):
    """A result as it can be compared: for each location the least and the greatest value, or the path."""
    kind, what = result
    if kind == "exhausted":
        return (kind, what)
    return (kind, frozenset((place, *scale.bounds(values)) for place, values in what.items()))


def fault(result):
    """Why the run ends at a step that yields this, if it does."""
    kind, what = result
    if kind == "exhausted":
        return "exhausted"
    return None if is_consistent(what) else "inconsistent"
