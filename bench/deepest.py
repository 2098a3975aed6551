"""The deepest texts: for each construct that nests, a text in which evaluation goes as deep as the limits on levels and ranks allow.

A text has 64 levels at most, and rules and derived functions have ranks of 16 at most, so seventeen bodies stand in each other. The
derived functions call each other with all levels around the call, and so do the rules, where the construct is a rule. Where it is a
term, each rule hands its parameter on in an argument with all levels around it: as a parameter is evaluated where it is used, all of
these stand on the stack at once. The main rule has the deep call in each of 32 parts of a `par`, so that each worker comes to it.
"""
LEVELS = 64
RANKS = 16
PARTS = 32
HEAD = (
    "CoreASM T\ninit M\nuniverse U = 0 .. 0\nfunction controlled x initially 0\nfunction controlled y\nfunction controlled z\n"
    "function controlled f : U initially 0\nfunction controlled g : U * U * U * U initially 0\n"
)


def every(inside):
    """An operation of each strength around it."""
    return f"not -{inside} * x + x = x and x or x"


# Terms: a level with what is inside.
TERMS = {
    "parentheses": lambda inside: f"(x + {inside})",
    "operators": lambda inside: f"({every(inside)})",
    "exists": lambda inside: f"(exists i in U with {inside})",
    "exists, operators": lambda inside: f"(exists i in U with {every(inside)})",
    "holds, operators": lambda inside: f"(forall i in U holds {every(inside)})",
    "argument": lambda inside: f"f({inside})",
    "argument, operators": lambda inside: f"f({every(inside)})",
    "four arguments, operators": lambda inside: f"g(x, x, x, {every(inside)})",
    "derived, operators": lambda inside: f"e({every(inside)})",
}

# Rules: a level with the rule inside.
RULES = {
    "par": lambda inside: f"par skip {inside} endpar",
    "seq": lambda inside: f"seq z := 1 {inside} endseq",
    "if": lambda inside: f"if x = 0 then {inside} endif",
    "let": lambda inside: f"let i = x in {inside} endlet",
    "forall": lambda inside: f"forall i in U with x = 0 do {inside} endforall",
    "choose": lambda inside: f"choose i in U with x = 0 do {inside} endchoose",
    "iterate": lambda inside: f"iterate {inside} enditerate",
    "while": lambda inside: f"while x = 0 do {inside} endwhile",
}


def around(level, levels, inside):
    for _ in range(levels):
        inside = level(inside)
    return inside


def derived(level):
    """The derived function `d16` of rank 16, or 15, if a level is a derived function itself, with all levels in each body on its way."""
    names = [f"d{k}" for k in range(RANKS + 1)]
    first = 1 if "e(" in level("x") else 0
    bodies = [around(level, LEVELS, below) for below in ["x"] + names[first:-1]]
    return "derived e(p) = p\n" + "".join(f"derived {name} = {body}\n" for name, body in zip(names[first:], bodies))


def main_rule(call):
    return "rule M = par " + f"{call} " * PARTS + "endpar\n"


def deep_term(level):
    """Rules that hand a parameter on, and look at it last of all."""
    rules = [f"rule R0(a) = y := {around(level, LEVELS, 'a')}\n"]
    rules += [f"rule R{k}(a) = R{k - 1}({around(level, LEVELS - 1, 'a')})\n" for k in range(1, RANKS)]
    deepest = around(level, LEVELS - 2, f"d{RANKS}")
    return HEAD + derived(level) + "".join(rules) + main_rule(f"R{RANKS - 1}({deepest})")


def deep_rule(level):
    """Rules with all levels around the call of the next, and the deepest terms in the last."""
    last = f"if d{RANKS} = 1 then y := 1 endif"
    rules = [f"rule R0 = {around(level, LEVELS - 1, last)}\n"]
    rules += [f"rule R{k} = {around(level, LEVELS, f'R{k - 1}')}\n" for k in range(1, RANKS)]
    return HEAD + derived(TERMS["four arguments, operators"]) + "".join(rules) + main_rule(around(level, LEVELS - 1, f"R{RANKS - 1}"))


def text(name):
    return deep_term(TERMS[name]) if name in TERMS else deep_rule(RULES[name])
