"""Why a condition isn't true in a state, worked out on the trees of reader.py as
docs/FINDING_FAULTS.md says: which part decides, which names are bound there, and what it reads."""
import model

STRENGTHS = {
    "or": 0, "and": 1, "not": 2, "=": 3, "!=": 3, "<": 3, "<=": 3, ">": 3, ">=": 3, "+": 4, "-": 4, "*": 5, "div": 5, "mod": 5, "minus": 6,
}
STRONGEST = 7
COMPARED = 3


def bare(term):
    """The term without the parentheses around it."""
    return term[1] if term[0] == "(" else term


def strength(term):
    """How tightly a term holds together, without the parentheses around it."""
    return STRENGTHS.get(bare(term)[0], STRONGEST)


class Printer:
    """Prints terms, with no parentheses but those that they need, and one blank between words."""

    def blank(self, needed):
        return needed

    def is_enclosed(self, term, least):
        return strength(term) < least

    def enclosed(self, term, least):
        """The text of a term, in parentheses if it holds together less than that."""
        if not self.is_enclosed(term, least):
            return self.text(term)
        return f"({self.blank('')}{self.text(term)}{self.blank('')})"

    def text(self, term):
        term = bare(term)
        kind, blank = term[0], self.blank
        if kind == "constant":
            return str(term[1])
        if kind == "name":
            arguments = f",{blank(' ')}".join(self.text(argument) for argument in term[2])
            return f"{term[1]}({arguments})" if arguments else term[1]
        if kind == "result":
            return "result"
        if kind == "not":
            return f"not{blank(' ')}{self.enclosed(term[1], STRENGTHS['not'] + 1)}"
        if kind == "minus":
            return f"-{self.enclosed(term[1], STRONGEST)}"
        if kind in ("exists", "forall"):
            words = [f"({kind}", term[1], "in", term[2], "with" if kind == "exists" else "holds"]
            return "".join(word + blank(" ") for word in words) + f"{self.text(term[3])})"
        own = strength(term)
        # The front of a chain is no operand. Comparisons alone don't form chains.
        is_front = STRENGTHS.get(term[1][0]) == own != COMPARED
        left = self.text(term[1]) if is_front else self.enclosed(term[1], own + 1)
        return f"{left}{blank(' ')}{kind}{blank(' ')}{self.enclosed(term[2], own + 1)}"


PLAIN = Printer()


def listed(arguments):
    return f"({', '.join(arguments)})" if arguments else ""


def operands(term, operation):
    """The parts of a chain."""
    return [*operands(term[1], operation), term[2]] if term[0] == operation else [term]


def calls(term):
    """The names with arguments in a term, without those in arguments and in quantifiers."""
    if term[0] == "name":
        return [term]
    if term[0] in ("constant", "result", "exists", "forall"):
        return []
    return [call for part in term[1:] for call in calls(part)]


class Reasons:
    """Why conditions aren't true in a state of a specification."""

    def __init__(self, specification, state):
        self.specification, self.state = specification, state

    def value(self, term, bound):
        """The value of a term under names that are bound, the innermost first."""
        return model.Step(self.specification, 1, []).term(term, dict(reversed(bound)), self.state)

    def decides(self, term, bound, wanted):
        return (self.value(term, bound) == "true") != wanted

    def inner(self, term, bound, wanted, strictly):
        """The part that decides it, with the names that are bound there, what is wanted, and
        whether only the opposite counts; or None."""
        term = bare(term)
        kind = term[0]
        if kind == "name":
            return self.body(term, bound, wanted, strictly)
        if kind == "not":
            return term[1], bound, not wanted, strictly
        if kind == ("and" if wanted else "or"):
            parts = operands(term, kind)
            if strictly and any(self.value(part, bound) not in ("true", "false") for part in parts):
                return None
            return next(((part, bound, wanted, strictly) for part in parts if self.decides(part, bound, wanted)), None)
        if kind == ("forall" if wanted else "exists"):
            _, name, universe, test = term
            tried = ([(name, value), *bound] for value in self.specification.universes[universe].values)
            return next(((test, inner, wanted, not wanted) for inner in tried if self.decides(test, inner, wanted)), None)
        return None

    def body(self, term, bound, wanted, strictly):
        _, name, arguments = term
        if name in dict(bound) or name not in self.specification.derived:
            return None
        derived = self.specification.derived[name]
        values = [self.value(argument, bound) for argument in arguments]
        return derived.body, list(zip(derived.parameters, values)), wanted, strictly

    def decided(self, condition):
        """The part that decides in the end, as `inner` has it."""
        part = (condition, [], True, False)
        while inner := self.inner(*part):
            part = inner
        return bare(part[0]), *part[1:]

    def because(self, condition):
        """The line for a condition that isn't true."""
        term, bound = self.decided(condition)[:2]
        said = f"because: {PLAIN.text(term)} is {self.value(term, bound)}"
        seen = {}
        for name, value in bound:
            seen.setdefault(name, value)
        named = [f"{name} = {value}" for name, value in seen.items()]
        return ", ".join([said, *named, *self.read(term, bound)])

    def read(self, term, bound):
        """What a term reads, each once."""
        known = (self.specification.controlled, self.specification.static, self.specification.derived)
        found = {}
        for _, name, arguments in calls(term):
            if name not in dict(bound) and any(name in functions for functions in known):
                values = [str(self.value(argument, bound)) for argument in arguments]
                found[f"{name}{listed(values)} = {self.value(('name', name, arguments), bound)}"] = None
        return list(found)
