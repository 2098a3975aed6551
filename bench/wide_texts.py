"""Random specifications with every kind of term and rule, and scripts for most short paths."""
from itertools import product

# Numbers beside which operations are of a kind of their own, and those at the ends of the range.
PLAIN = ["0", "1", "2", "3", "-1", "-3", "5"]
ENDS = ["100000000000000000", "-100000000000000000", "99999999999999999", "4294967296"]

# Functions with the universes of their domains, and derived functions and rules with the numbers of
# their parameters.
CONTROLLED = {
    "x": [],
    "y": [],
    "z": [],
    "f": ["U"],
    "e": ["E"],
    "n": ["O"],
    "h": ["U", "E"],
    "w": ["E", "V"],
    "k": ["E", "V", "U"],
    "m": ["E", "V", "O", "U"],
}
STATIC = {"c0": [], "g": ["U"], "g2": ["V", "E"], "g3": ["E", "V", "U"], "g4": ["E", "E", "V", "V"]}
DERIVED = {"d0": 0, "d1": 1, "d2": 2, "d3": 3, "d4": 0, "d5": 5, "d6": 1, "d7": 2}
RULES = {"r0": 0, "r1": 1, "r2": 2, "r3": 3, "r4": 1, "r5": 0}
ANSWERING = {"t0": 0, "t1": 1, "t2": 2, "t3": 1, "t4": 4}
UNIVERSES = ["U", "V", "E", "E", "F", "O", "N"]

# Values of universes.
VALUES = {"U": ["-1", "0", "1", "2"], "V": ["1", "2"], "E": ["a", "b", "c"], "O": ["7"]}

# Operations that may stand in one chain.
CHAINS = [["and"], ["or"], ["and", "or"], ["+", "-"], ["*", "div", "mod"], ["+", "*", "mod", "-"]]


class Wide:
    """A random specification. A derived function or a rule uses those that come before it, so that
    none leads back to itself."""

    def __init__(self, chance):
        self.chance = chance
        self.derived, self.rules, self.answering = list(DERIVED), list(RULES), list(ANSWERING)
        self.answers = False

    def number(self):
        return self.chance.choice(self.chance.choices([PLAIN, ENDS], [12, 1])[0])

    def constant(self):
        others = ["a", "b", "c", "p", "true", "false", "undef"]
        return self.chance.choice([self.number(), self.number(), *others])

    def leaf(self, bound):
        answer = ["result", "result"] if self.answers else []
        constants = [self.constant(), self.constant()]
        return self.chance.choice(["x", "y", "z", *bound, *bound, *bound, *answer, *constants])

    def applied(self, name, count, depth, bound):
        if count == 0 or name in bound:
            return name
        return f"{name}({', '.join(self.term(depth - 1, bound) for _ in range(count))})"

    def held(self, depth, bound):
        name, domain = self.chance.choice([*CONTROLLED.items(), *STATIC.items()])
        return self.applied(name, len(domain), depth, bound)

    def use(self, depth, bound):
        if not self.derived:
            return self.held(depth, bound)
        name = self.chance.choice(self.derived)
        return self.applied(name, DERIVED[name], depth, bound)

    def chain(self, depth, bound):
        operations = self.chance.choice(CHAINS)
        text = self.operand(depth, bound)
        for _ in range(self.chance.choice([1, 2, 2, 3, 5])):
            text += f" {self.chance.choice(operations)} {self.operand(depth, bound)}"
        return f"({text})"

    def operand(self, depth, bound):
        return self.chance.choice(["", "", "", "-"]) + self.term(depth - 1, bound).removeprefix("-")

    def known(self, depth, bound):
        """An operation whose right operand is a constant."""
        operation = self.chance.choice("+ - * div mod = != < <= > >=".split())
        return f"({self.term(depth - 1, bound)} {operation} {self.constant()})"

    def remainder(self, depth, bound):
        sign = self.chance.choice("+-")
        return f"(({self.term(depth - 1, bound)} {sign} {self.number()}) mod {self.number()})"

    def comparison(self, depth, bound):
        operation = self.chance.choice("= != < <= > >=".split())
        return f"({self.term(depth - 1, bound)} {operation} {self.term(depth - 1, bound)})"

    def turned(self, depth, bound):
        sign = self.chance.choice(["not ", "-"])
        return f"({sign}{self.term(depth - 1, bound).removeprefix('-')})"

    def quantified(self, depth, bound):
        new = self.new()
        word, verb = self.chance.choice([("exists", "with"), ("forall", "holds")])
        test = self.term(depth - 1, [*bound, new, new])
        return f"({word} {new} in {self.universe()} {verb} {test})"

    def new(self):
        """A name for a binder, which may hide others."""
        return self.chance.choice(["i", "i", "j", "j", "o", "x", "f", "d1", "a", "U"])

    def universe(self):
        return self.chance.choice(UNIVERSES)

    def term(self, depth, bound):
        if depth <= 0 or self.chance.random() < 0.15:
            return self.leaf(bound)
        makers = [self.held, self.use, self.chain, self.known]
        others = [self.remainder, self.comparison, self.turned, self.quantified]
        return self.chance.choices(makers + others, [3, 3, 2, 3, 1, 2, 1, 2])[0](depth, bound)

    def test(self, bound):
        """A condition, which holds more often than a random term."""
        tests = [self.term(3, bound), self.comparison(2, bound), self.chain(2, bound), "true"]
        return self.chance.choice(tests)

    def target(self, bound):
        if self.answers and self.chance.random() < 0.4:
            return "result"
        return self.place(bound)

    def place(self, bound):
        """A location of a controlled function, mostly with arguments of its domain."""
        seen = [name for name in CONTROLLED if name not in bound]
        name = self.chance.choice(seen)
        domain = CONTROLLED[name]
        if not domain:
            return name
        return f"{name}({', '.join(self.argument(universe, bound) for universe in domain)})"

    def argument(self, universe, bound):
        return self.chance.choice([*VALUES[universe], *bound, self.term(2, bound)])

    def assignment(self, bound):
        return f"{self.target(bound)} := {self.term(3, bound)}"

    def call(self, bound):
        with_target = self.chance.random() < 0.6
        names = self.answering if with_target else self.rules
        if not names:
            return self.assignment(bound)
        name = self.chance.choice(names)
        call = self.signed(name, [self.term(1, bound) for _ in range({**RULES, **ANSWERING}[name])])
        return f"{self.place(bound)} <- {call}" if with_target else call

    def group(self, depth, bound):
        word = self.chance.choice(["par", "seq"])
        parts = [self.rule(depth - 1, bound) for _ in range(self.chance.choice([1, 2, 2, 3, 4]))]
        return f"{word} {' '.join(parts)} end{word}"

    def branch(self, depth, bound):
        other = self.chance.choice(["", f" else {self.rule(depth - 1, bound)}"])
        return f"if {self.test(bound)} then {self.rule(depth - 1, bound)}{other} endif"

    def bind(self, depth, bound):
        new = self.new()
        return f"let {new} = {self.term(3, bound)} in {self.rule(depth - 1, [*bound, new])} endlet"

    def condition(self, bound):
        return self.chance.choice(["", f" with {self.test(bound)}"])

    def every(self, depth, bound):
        new = self.new()
        inner = [*bound, new, new]
        over = f"{new} in {self.universe()}{self.condition(inner)}"
        return f"forall {over} do {self.rule(depth - 1, inner)} endforall"

    def one(self, depth, bound):
        new = self.new()
        inner = [*bound, new, new]
        none = self.chance.choice(["", f" ifnone {self.rule(depth - 1, bound)}"])
        over = f"{new} in {self.universe()}{self.condition(inner)}"
        return f"choose {over} do {self.taken(new, depth, inner)}{none} endchoose"

    def taken(self, new, depth, bound):
        """What is done with the value that is taken, which it mostly tells."""
        rule = self.rule(depth - 1, bound)
        if self.chance.random() < 0.3:
            return rule
        return f"par {self.place(bound)} := {new} {rule} endpar"

    def turns(self, depth, bound):
        """Turns, mostly with an end."""
        word = self.chance.choice(["seq", "par"])
        body = f"{word} {self.rule(depth - 1, bound)} z := z + 1 end{word}"
        kind, end = self.chance.randrange(4), self.chance.choice(["2", "3", self.term(2, bound)])
        if kind == 0:
            return f"iterate {self.rule(depth - 1, bound)} enditerate"
        if kind == 1:
            return f"seq z := 0 while z < {end} do {body} endwhile endseq"
        return f"seq z := 0 iterate if z < {end} then {body} endif enditerate endseq"

    def rule(self, depth, bound):
        if depth <= 0 or self.chance.random() < 0.1:
            makers = [self.assignment, self.call, lambda _: "skip"]
            return self.chance.choices(makers, [6, 3, 1])[0](bound)
        makers = [self.group, self.branch, self.bind, self.every, self.one, self.turns]
        return self.chance.choices(makers, [5, 4, 4, 3, 6, 2])[0](depth, bound)

    def names(self, count):
        """Distinct names of parameters, some of which hide what is declared."""
        return self.chance.sample(["q", "s", "v", "x", "i", "a", "o", "d1", "h", "U"], count)

    def signed(self, name, names):
        return name + (f"({', '.join(names)})" if names else "")

    def derived_functions(self):
        for k, (name, count) in enumerate(DERIVED.items()):
            self.derived = list(DERIVED)[:k]
            names = self.names(count)
            yield f"derived {self.signed(name, names)} = {self.term(3, [*names, *names])}"

    def called_rules(self, kinds, answers):
        """Rules of which each calls the ones before it."""
        for k, (name, count) in enumerate(kinds.items()):
            self.answers = answers
            if answers:
                self.answering = list(kinds)[:k]
            else:
                self.rules = list(kinds)[:k]
            names = self.names(count)
            depth = self.chance.choice([1, 2, 2])
            yield f"rule {self.signed(name, names)} = {self.rule(depth, names)}"
            self.answers = False

    def initial(self, domain):
        kind = self.chance.randrange(4)
        if kind == 0:
            return ""
        if kind == 1 or not domain:
            return f" initially {self.constant()}"
        keys = list(product(*(VALUES[universe] for universe in domain)))
        taken = self.chance.sample(keys, min(len(keys), 4))
        entries = ", ".join(f"({', '.join(key)}) -> {self.constant()}" for key in taken)
        return f" initially {{ {entries} }}"

    def functions(self):
        for kind, of in (("controlled", CONTROLLED), ("static", STATIC)):
            for name, domain in of.items():
                domain_text = f" : {' * '.join(domain)}" if domain else ""
                yield f"function {kind} {name}{domain_text}{self.initial(domain)}"

    def text(self):
        items = ["enum E = { a, b, c }", "enum F = { p }", "universe U = -1 .. 2"]
        items += [f"universe V = 1 .. {self.chance.choice([2, 3])}", "universe O = 7 .. 7"]
        items += ["universe N = 1 .. 0", *self.functions(), *self.derived_functions()]
        self.derived, self.rules = list(DERIVED), []
        items += self.called_rules(ANSWERING, True)
        self.answering = list(ANSWERING)
        items += self.called_rules(RULES, False)
        self.rules = list(RULES)
        items.append(f"rule M = {self.rule(self.chance.choice([2, 3, 4, 4]), [])}")
        self.chance.shuffle(items)
        return ("CoreASM T\ninit M\n" + "\n".join(items) + "\n").encode()


def script(chance):
    """A script with a line for most short paths, for one step or for all, so that it shows at which
    path a `choose` asks."""
    lines = []
    for length in range(chance.choice([0, 3, 5, 7, 7])):
        for path in product(range(3), repeat=length):
            if chance.random() < 0.6:
                step = chance.choice(["*", "1", "2", "3"])
                at = ".".join(map(str, path)) or "-"
                lines.append(f"{step} {at} {chance.choice([*range(8), 999_999_998])}\n")
    return "".join(lines).encode()
