"""Random specifications that are small enough for brute force, as trees of model.py, and their texts."""
from model import Function, Named, Specification, Universe, lists

HEAD = "CoreASM T\ninit M\n"


def shown(term):
    """The text of a term, with parentheses round each operation."""
    kind = term[0]
    if kind == "constant":
        return f"({term[1]})" if isinstance(term[1], int) and term[1] < 0 else str(term[1])
    if kind == "name":
        return signed(term[1], [shown(argument) for argument in term[2]])
    if kind == "result":
        return "result"
    if kind == "not":
        return f"(not {shown(term[1])})"
    if kind == "minus":
        return f"(-{shown(term[1])})"
    if kind == "exists":
        return f"(exists {term[1]} in {term[2]} with {shown(term[3])})"
    if kind == "forall":
        return f"(forall {term[1]} in {term[2]} holds {shown(term[3])})"
    return f"({shown(term[1])} {kind} {shown(term[2])})"


def signed(name, parts):
    return name + (f"({', '.join(parts)})" if parts else "")


def condition(test):
    return "" if test is None else f" with {shown(test)}"


def told(rule):
    """The text of a rule."""
    kind = rule[0]
    if kind == "skip":
        return "skip"
    if kind == "assign":
        return f"{shown(rule[1])} := {shown(rule[2])}"
    if kind in ("par", "seq"):
        return f"{kind} {' '.join(told(part) for part in rule[1])} end{kind}"
    if kind == "if":
        other = f" else {told(rule[3])}" if rule[3] else ""
        return f"if {shown(rule[1])} then {told(rule[2])}{other} endif"
    if kind == "let":
        return f"let {rule[1]} = {shown(rule[2])} in {told(rule[3])} endlet"
    if kind == "forall":
        return f"forall {rule[1]} in {rule[2]}{condition(rule[3])} do {told(rule[4])} endforall"
    if kind == "choose":
        none = f" ifnone {told(rule[5])}" if rule[5] else ""
        return f"choose {rule[1]} in {rule[2]}{condition(rule[3])} do {told(rule[4])}{none} endchoose"
    if kind == "iterate":
        return f"iterate {told(rule[1])} enditerate"
    if kind == "while":
        return f"while {shown(rule[1])} do {told(rule[2])} endwhile"
    target = f"{shown(rule[1])} <- " if rule[1] else ""
    return target + signed(rule[2], [shown(argument) for argument in rule[3]])


class Open:
    """What may be updated: a function, with the names that stand for some of its arguments. So rules beside each other mostly update
    other locations, and don't clash."""

    def __init__(self, name, fixed=()):
        self.name, self.fixed = name, tuple(fixed)

    def with_fixed(self, place, name):
        return Open(self.name, (*self.fixed, (place, name)))


class Random:
    """A random specification. Numbers that are stored stay small, so that few states are reached."""

    def __init__(self, chance):
        self.chance = chance
        # How often a rule updates what another may update too, and how often an argument may be outside.
        self.wild = chance.choice([0, 0, 0.02, 0.05, 0.15, 0.3])
        self.most = chance.choice([2, 2, 3, 3, 4])
        self.universes, self.kinds = {}, {}
        self.functions, self.static, self.derived, self.rules, self.answering = {}, {}, {}, {}, {}
        self.opened, self.result = {}, None
        self.declare()

    # Declarations

    def declare(self):
        chance = self.chance
        elements = ["a", "b", "c"][: chance.choice([1, 2, 2, 2, 3, 3])]
        self.universes["E"] = Universe(elements, f"enum E = {{ {', '.join(elements)} }}")
        first, size = chance.choice([-1, 0, 0, 1]), chance.choice([1, 2, 2, 2, 3, 3])
        self.universes["U"] = Universe(list(range(first, first + size)), f"universe U = {first} .. {first + size - 1}")
        if chance.random() < 0.3:
            self.universes["V"] = Universe([0, 1], "universe V = 0 .. 1")
        if chance.random() < 0.05:
            self.universes["N"] = Universe([], "universe N = 1 .. 0")
        shapes = [("x", [], "number"), ("y", [], "number"), ("z", [], "number"), ("p", [], "truth"), ("q", [], "truth"), ("e", [], "E")]
        shapes += [("f", ["U"], "number"), ("g", ["E"], "truth"), ("h", ["U"], "U"), ("k", ["E", "U"], "truth"), ("o", ["U"], "E")]
        for name, domain, kind in chance.sample(shapes, chance.choice([1, 2, 3, 3, 4, 4, 5, 6])):
            self.functions[name] = self.function("controlled", name, domain, kind)
        if chance.random() < 0.4:
            self.static["s"] = self.function("static", "s", ["E"], "number")
        for name in ["d", "dd"][: chance.choice([0, 1, 2])]:
            parameters = ["u", "v"][: chance.choice([0, 1, 2])]
            kind = chance.choice(["number", "truth"])
            body = self.term(kind, 2, {parameter: "number" for parameter in parameters})
            self.derived[name] = Named(parameters, body, f"derived {signed(name, parameters)} = {shown(body)}")
            self.kinds[name] = kind

    def function(self, word, name, domain, kind):
        self.kinds[name] = kind
        arguments = lists(self, domain)
        how = self.chance.random()
        if how < 0.5 or not domain:
            value = self.constant(kind) if how < 0.9 else "undef"
            initial, text = {given: value for given in arguments}, f" initially {value}"
        else:
            initial = {given: self.constant(kind) for given in arguments if self.chance.random() < 0.8}
            entries = [f"({', '.join(map(str, given))}) -> {value}" for given, value in initial.items()]
            text = f" initially {{ {', '.join(entries)} }}" if entries else ""
        return Function(domain, initial, f"function {word} {name}{' : ' + ' * '.join(domain) if domain else ''}{text}")

    def constant(self, kind):
        if kind == "number":
            return self.chance.randrange(self.most)
        if kind == "truth":
            return self.chance.choice(["true", "false"])
        return self.chance.choice(self.universes[kind].values or ["undef"])

    # Terms

    def term(self, kind, depth, bound):
        chance = self.chance
        if chance.random() < 0.02:
            kind = chance.choice(["number", "truth", "E"])
        if depth <= 0 or chance.random() < 0.3:
            return self.leaf(kind, bound)
        if kind == "truth":
            return self.test(depth, bound)
        if kind == "number":
            how = chance.randrange(10)
            if how < 6:
                operation = chance.choice(["+", "+", "-", "*", "div"])
                return (operation, self.term(kind, depth - 1, bound), self.term(kind, depth - 1, bound))
            if how < 7:
                return ("minus", self.term(kind, depth - 1, bound))
            return ("mod", self.term(kind, depth - 1, bound), ("constant", chance.choice([2, 3])))
        return self.leaf(kind, bound)

    def test(self, depth, bound):
        chance = self.chance
        how = chance.randrange(9)
        if how < 3:
            kind = chance.choice(["number", "number", "E", "truth"])
            operation = chance.choice(["=", "!=", "<", "<=", ">", ">="] if kind == "number" else ["=", "!="])
            return (operation, self.term(kind, depth - 1, bound), self.term(kind, depth - 1, bound))
        if how < 4:
            return ("not", self.term("truth", depth - 1, bound))
        if how < 6:
            return (chance.choice(["and", "or"]), self.term("truth", depth - 1, bound), self.term("truth", depth - 1, bound))
        if how < 8:
            name, universe = self.new(bound), self.universe()
            return (chance.choice(["exists", "forall"]), name, universe, self.term("truth", depth - 1, {**bound, name: universe}))
        return self.leaf("truth", bound)

    def fits(self, of, kind):
        return of == kind or (kind == "number" and of in ("U", "V", "N")) or (kind in ("U", "V", "N") and of == "number")

    def leaf(self, kind, bound):
        chance = self.chance
        found = [("name", name, []) for name, of in bound.items() if self.fits(of, kind)] * 3
        declared = [*self.functions, *self.static, *self.derived]
        found += [None] * sum(self.fits(self.kinds[name], kind) for name in declared if name not in bound)
        if self.result and self.fits(self.result, kind):
            found += [("result",)] * 2
        taken = chance.choice([*found, ("constant", self.constant(kind))])
        if taken is not None:
            return taken
        name = chance.choice([name for name in declared if name not in bound and self.fits(self.kinds[name], kind)])
        if name in self.derived:
            arguments = [self.argument("number", bound) for _ in self.derived[name].parameters]
        else:
            function = self.functions.get(name) or self.static[name]
            arguments = [self.argument(universe, bound) for universe in function.domain]
        return ("name", name, arguments)

    def argument(self, kind, bound):
        """A term that is mostly an element of the universe."""
        chance = self.chance
        if chance.random() < self.wild:
            return self.term("number" if kind != "E" else kind, 1, bound)
        seen = [("name", name, []) for name, of in bound.items() if of == kind]
        if seen and chance.random() < 0.7:
            return chance.choice(seen)
        return ("constant", self.constant(kind))

    def new(self, bound):
        """A name for a binder, which may hide another one."""
        return self.chance.choice(["i", "i", "j", "j", "m", "n", *list(bound)[:1], *list(self.functions)[:1]])

    def universe(self):
        return self.chance.choice(list(self.universes))

    # Rules

    def rule(self, depth, bound, opens):
        chance = self.chance
        if depth <= 0 or chance.random() < 0.04:
            return self.small(bound, opens)
        makers = [self.par, self.seq, self.branch, self.bind, self.every, self.one, self.turns, self.call, self.small]
        return chance.choices(makers, [4, 3, 3, 2, 3, 6, 2, 2, 1])[0](depth, bound, opens) if depth else None

    def small(self, *given):
        bound, opens = given[-2:]
        chance = self.chance
        if self.result and chance.random() < 0.4:
            return ("assign", ("result",), self.stored(self.result, bound))
        if not opens or chance.random() < 0.04:
            return ("skip",)
        return self.assignment(bound, chance.choice(opens))

    def target(self, bound, place):
        domain = self.functions[place.name].domain
        arguments = [self.argument(universe, bound) for universe in domain]
        for at, name in place.fixed:
            if self.chance.random() >= self.wild:
                arguments[at] = ("name", name, [])
        return ("name", place.name, arguments)

    def assignment(self, bound, place):
        target = self.target(bound, place)
        return ("assign", target, self.moved(target, self.kinds[place.name], bound))

    def moved(self, here, kind, bound):
        """A term that often has another value than the location has."""
        chance = self.chance
        if chance.random() < 0.4:
            return self.stored(kind, bound)
        if kind == "truth":
            return ("not", here) if chance.random() < 0.6 else self.term(kind, 2, bound)
        if kind == "number":
            return ("mod", ("+", here, chance.choice([("constant", 1), ("constant", 1), self.leaf(kind, bound)])), ("constant", self.most))
        values = [("constant", value) for value in self.universes[kind].values]
        return chance.choice([*values, *(("name", name, []) for name, of in bound.items() if of == kind), ("constant", "undef")])

    def stored(self, kind, bound):
        """A term whose value is small."""
        if self.chance.random() < 0.03:
            return ("constant", "undef")
        term = self.term(kind, 2, bound)
        if term[0] in ("constant", "truth", "not", "and", "or", "=", "!=", "<", "<=", ">", ">=", "exists", "forall") or kind == "E":
            return term
        if kind == "truth":
            return term
        if kind in ("U", "V"):
            return ("constant", self.constant(kind)) if self.chance.random() < 0.5 else self.argument(kind, bound)
        return ("mod", term, ("constant", self.most))

    def parts(self, opens, count):
        """What each of some rules beside each other may update."""
        shares = [[] for _ in range(count)]
        for place in opens:
            self.chance.choice(shares).append(place)
            if self.chance.random() < self.wild:
                self.chance.choice(shares).append(place)
        return shares

    def par(self, depth, bound, opens):
        count = self.chance.choice([1, 2, 2, 2, 3])
        return ("par", [self.rule(depth - 1, bound, share) for share in self.parts(opens, count)])

    def seq(self, depth, bound, opens):
        return ("seq", [self.rule(depth - 1, bound, opens) for _ in range(self.chance.choice([1, 2, 2, 3]))])

    def branch(self, depth, bound, opens):
        other = self.rule(depth - 1, bound, opens) if self.chance.random() < 0.5 else None
        return ("if", self.term("truth", 2, bound), self.rule(depth - 1, bound, opens), other)

    def bind(self, depth, bound, opens):
        kind, name = self.chance.choice(["number", "truth", "E"]), self.new(bound)
        return ("let", name, self.term(kind, 2, bound), self.rule(depth - 1, {**bound, name: kind}, self.visible(opens, name)))

    def visible(self, opens, name):
        """What may still be updated where this name is bound anew."""
        return [place for place in opens if place.name != name and all(fixed != name for _, fixed in place.fixed)]

    def some_test(self, bound):
        how = self.chance.random()
        if how < 0.5:
            return None
        if how < 0.75:
            return ("not", self.term("truth", 1, bound))
        return self.term("truth", 2, bound)

    def every(self, depth, bound, opens):
        name, universe = self.new(bound), self.universe()
        inner, places = {**bound, name: universe}, []
        for place in self.visible(opens, name):
            domain = self.functions[place.name].domain
            free = [at for at, over in enumerate(domain) if over == universe and all(at != fixed for fixed, _ in place.fixed)]
            if free:
                places.append(place.with_fixed(self.chance.choice(free), name))
            elif self.chance.random() < self.wild or len(self.universes[universe].values) < 2:
                places.append(place)
        return ("forall", name, universe, self.some_test(inner), self.rule(depth - 1, inner, places))

    def one(self, depth, bound, opens):
        chance = self.chance
        name, universe = self.new(bound), self.universe()
        inner, places = {**bound, name: universe}, self.visible(opens, name)
        none = self.rule(depth - 1, bound, opens) if chance.random() < 0.3 else None
        return ("choose", name, universe, self.some_test(inner), self.taken(depth, inner, places, universe), none)

    def taken(self, depth, bound, opens, universe):
        """What is done with an element that is taken, which is mostly told."""
        chance = self.chance
        telling = [place for place in opens if self.fits(self.kinds[place.name], universe) and not place.fixed]
        if not telling or chance.random() < 0.35:
            return self.rule(depth - 1, bound, opens)
        place = chance.choice(telling)
        term = ("name", list(bound)[-1], [])
        if self.kinds[place.name] == "number":
            term = ("mod", term, ("constant", self.most))
        tells = ("assign", self.target(bound, place), term)
        rest = [other for other in opens if other is not place or chance.random() < self.wild]
        return (chance.choice(["par", "par", "seq"]), [tells, self.rule(depth - 1, bound, rest)]) if chance.random() < 0.6 else tells

    def turns(self, depth, bound, opens):
        chance = self.chance
        how = chance.choices([0, 1, 2, 3], [1, 1, 1, 4])[0]
        if how == 0:
            return ("iterate", self.rule(depth - 1, bound, opens))
        if how == 1:
            return ("while", self.term("truth", 2, bound), self.rule(depth - 1, bound, opens))
        if how == 2:
            return ("iterate", ("if", self.term("truth", 2, bound), self.rule(depth - 1, bound, opens), None))
        counters = [place for place in opens if self.kinds[place.name] == "number" and not self.functions[place.name].domain]
        if not counters:
            return ("iterate", ("choose", "i", "U", self.term("truth", 2, {**bound, "i": "U"}), self.rule(depth - 1, bound, self.visible(opens, "i")), None))
        place = chance.choice(counters)
        here = ("name", place.name, [])
        end, more = ("constant", chance.choice([1, 2, 2, 3])), ("assign", here, ("+", here, ("constant", 1)))
        rest = [other for other in opens if other is not place]
        body = (chance.choice(["par", "seq"]), [self.rule(depth - 1, bound, rest), more])
        return ("seq", [("assign", here, ("constant", 0)), ("while", ("<", here, end), body), ("assign", here, ("mod", here, ("constant", 2)))])

    def choices(self, depth, bound, opens):
        """Some functions, each changed as it is chosen, beside each other or one after the other."""
        parts = [self.one(self.chance.choice([1, 2, 3]), bound, share) for share in self.parts(opens, self.chance.choice([1, 2, 2, 3])) if share]
        return (self.chance.choice(["par", "par", "seq"]), parts or [("skip",)])

    def moves(self, depth, bound, opens):
        """One of some functions is changed, or several in turn."""
        if not opens:
            return ("skip",)
        name, universe = "i", self.chance.choice(["E", "U"])
        inner, seen = {**bound, name: universe}, self.visible(opens, name)
        body = self.rule(depth - 1, inner, seen)
        for value in self.universes[universe].values:
            other = self.chance.choice([self.small, self.rule])(self.chance.choice([1, 2]), inner, seen)
            body = ("if", ("=", ("name", name, []), ("constant", value)), other, body)
        return ("choose", name, universe, self.some_test(inner), body, None)

    def call(self, depth, bound, opens):
        chance = self.chance
        if chance.random() < 0.5:
            places = [place for place in opens if self.kinds[place.name] != "E"]
            if self.answering and places:
                place = chance.choice(places)
                name = chance.choice(list(self.answering))
                free = {place.name for place in opens} - {place.name}
                if self.opened[name] <= free or chance.random() < self.wild:
                    return ("call", self.target(bound, place), name, self.given(name, bound))
        names = [name for name in self.rules if self.opened[name] <= {place.name for place in opens if not place.fixed} or chance.random() < self.wild]
        if not names:
            return self.rule(depth - 1, bound, opens)
        name = chance.choice(names)
        return ("call", None, name, self.given(name, bound))

    def given(self, name, bound):
        called = {**self.rules, **self.answering}[name]
        return [self.term("number", 1, bound) for _ in called.parameters]

    def called(self):
        """Rules of which each calls the ones before it."""
        chance = self.chance
        for number in range(chance.choice([0, 0, 1, 2])):
            answers = chance.random() < 0.5
            name = f"{'t' if answers else 'r'}{number}"
            parameters = ["v", "w"][: chance.choice([0, 1, 1, 2])]
            self.result = "number" if answers else None
            opens = [Open(name) for name in self.functions if chance.random() < 0.5]
            body = self.rule(chance.choice([1, 2]), {parameter: "number" for parameter in parameters}, opens)
            if answers and chance.random() < 0.8:
                body = ("par", [("assign", ("result",), self.stored("number", {parameter: "number" for parameter in parameters})), body])
            self.result = None
            (self.answering if answers else self.rules)[name] = Named(parameters, body, f"rule {signed(name, parameters)} = {told(body)}")
            self.opened[name] = {place.name for place in opens}

    def specification(self):
        self.called()
        opens, depth = [Open(name) for name in self.functions], self.chance.choice([2, 3, 3, 4])
        makers = [self.rule, self.one, self.par, self.choices, self.moves]
        body = self.chance.choices(makers, [2, 2, 1, 3, 3])[0](depth, {}, opens)
        rules = {"M": Named([], body, f"rule M = {told(body)}"), **self.rules, **self.answering}
        return Specification(self.universes, self.functions, self.static, self.derived, rules, "M")


def text_of(specification, chance):
    parts = [*specification.universes.values(), *specification.static.values(), *specification.derived.values(), *specification.rules.values()]
    items = [part.text for part in parts]
    chance.shuffle(items)
    return HEAD + "\n".join([*(function.text for function in specification.controlled.values()), *items]) + "\n"
