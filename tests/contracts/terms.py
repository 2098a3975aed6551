"""Reads tokens as terms, and makes terms alike that mean the same.

A term is a list of tokens and groups. A group is its two brackets and the terms between its commas.
The second bracket may be a path, since a file imports []. A name or a group, with the fields
behind dots, is a unit.
"""
import collections

from .rattle_tokens import BINDS, CLOSING, OPENING, is_word

# Words of the language, and parts of operators, that are no names.
KEYWORDS = ("λ", "let", "in", "if", "then", "else", "where", "module", "mutual")
# What is behind a group that binds names for what follows; and what surely is no name, with the
# parts of operators, which have a ◌.
BEHIND_BINDERS = ("→", "×")
NO_NAMES = (*BEHIND_BINDERS, BINDS, "in", "=", ":")
# Names and values without a letter.
SIGNS = ("⊥", "⊤")
# The name of what a term binds, before its number.
BOUND = "bound#"
# How often a term is gone over until nothing changes.
PASSES = 30

# A term with what the names in it stand for.
Closure = collections.namedtuple("Closure", "term env")


class Unreadable(Exception):
    """Tokens have a form that this reader doesn't know."""


class Member(str):
    """A field or a method behind a dot or in a literal, with all that it may be in the new tree.

    A token doesn't say of which type it is, so that it is one of what fields of this name become.
    """

    def __new__(cls, text, options):
        made = super().__new__(cls, text)
        made.options = options
        return made


class Implied(str):
    """An implicit argument, which no token says: one and the same name wherever it stands."""

    def __new__(cls, text):
        made = super().__new__(cls, text)
        made.value = None
        return made

    def takes(self, token):
        """Returns whether this may be a token; the first name decides."""
        if self.value is None and is_name(token) and BOUND not in token:
            self.value = str(token)
        return self.value == token


def is_name(token):
    """Returns whether a token is a name that stands for something else than itself."""
    is_special = isinstance(token, (tuple, Member, Implied)) or token in KEYWORDS
    return not is_special and "◌" not in token and is_word(token)


def is_operator(it):
    """Returns whether a part of a term is no unit for sure, so that one begins behind it."""
    return not isinstance(it, tuple) and ("◌" in it or it in NO_NAMES)


def is_operand(it):
    """Returns whether a part of a term is, or ends, a unit: it is no operator and no keyword."""
    if isinstance(it, (tuple, Implied)) or is_name(it) or it in SIGNS or it[:1].isdigit():
        return True
    return it[:1] == "." and it != BINDS


def tree(tokens):
    """Returns the term of these tokens."""
    opened, parts = [], [[]]
    for token in tokens:
        if token in tuple(OPENING):
            opened.append((token, parts))
            parts = [[]]
        elif token[-1:] in tuple(CLOSING):
            if not opened or OPENING.index(opened[-1][0]) != CLOSING.index(token[-1]):
                raise Unreadable(f"{token} closes nothing")
            (bracket, outer), inner = opened.pop(), parts
            parts = outer
            parts[-1].append((f"{bracket}{token}", inner))
        elif token == ",":
            parts.append([])
        else:
            parts[-1].append(token)
    if opened or len(parts) > 1:
        raise Unreadable("brackets don't match, or there is a comma without any")
    return parts[0]


def flat(term):
    """Returns the tokens of a term."""
    made = []
    for it in term:
        if not isinstance(it, tuple):
            made.append(it)
            continue
        made.append(it[0][0])
        for at, part in enumerate(it[1]):
            made += [*([","] if at else []), *flat(part)]
        made.append(it[0][1:])
    return made


def unit_end(term, at):
    """Returns where the unit ends that begins here."""
    at += 1
    while at + 1 < len(term) and term[at] == ".":
        at += 2
    return at


def units_of(term):
    """Returns the units of a term that is a name or its application, or None."""
    made, at = [], 0
    while at < len(term):
        if not is_operand(term[at]):
            return None
        end = unit_end(term, at)
        made.append(term[at:end])
        at = end
    return made


def binder_names(it):
    """Returns the names that a group binds for what follows, as (x y : T) does, or None."""
    if not isinstance(it, tuple) or it[0][0] == "[" or len(it[1]) != 1 or ":" not in it[1][0]:
        return None
    names = it[1][0][: it[1][0].index(":")]
    return names if names and all(map(is_name, names)) else None


def function_of(it):
    """Returns the names and the body of a function that a group writes out, or None."""
    if not isinstance(it, tuple) or it[0] != "()" or len(it[1]) != 1 or it[1][0][:1] != ["λ"]:
        return None
    names, at = names_at(it[1][0], 1, BINDS)
    return names, it[1][0][at:]


def names_at(term, at, last):
    """Returns the names from here to a token, and the place behind this."""
    end = at
    while end < len(term) and is_name(term[end]):
        end += 1
    if end == at or end == len(term) or term[end] != last:
        raise Unreadable("something else than names is bound")
    return term[at:end], end + 1


class Pass:
    """Goes over a term once: what is bound gets a number for a name, in order; what a let binds is
    put in its place, and so is the argument of a function that is written out.

    Each name of an argument is read where the argument stands, so that none is captured.
    """

    def __init__(self, unknown=()):
        # Names that stand for something only where they are bound.
        self.unknown, self.count = unknown, 0

    def term(self, term, env):
        made, at = [], 0
        while at < len(term):
            it = term[at]
            if it == "λ":
                names, at = names_at(term, at + 1, BINDS)
                env, named = self.bind(names, env)
                made += [it, *named, BINDS]
            elif it == "let":
                at, env = self.unfold(term, at, env)
            elif binder_names(it):
                at += 1
                follows = at < len(term) and (term[at] in BEHIND_BINDERS or binder_names(term[at]))
                if not follows:
                    raise Unreadable("a colon in brackets binds nothing")
                names = binder_names(it)
                kind = self.term(it[1][0][len(names) + 1 :], env)
                env, named = self.bind(names, env)
                made.append((it[0], [[*named, ":", *kind]]))
            else:
                at = self.take(term, at, env, made)
        return made

    def bind(self, names, env):
        """Returns what names stand for where these are bound, and what they are called there."""
        named = [f"{BOUND}{self.count + at}" for at in range(1, len(names) + 1)]
        self.count += len(names)
        return {**env, **{str(it): Closure([to], {}) for it, to in zip(names, named)}}, named

    @staticmethod
    def unfold(term, at, env):
        """Takes over what a let binds, and returns the place behind its `in`."""
        names, start = names_at(term, at + 1, "=")
        end, depth = start, 1
        while end < len(term) and depth:
            depth += (term[end] == "let") - (term[end] == "in")
            end += 1
        if len(names) > 1 or depth:
            raise Unreadable("a let binds a function, or has no in")
        return end, {**env, str(names[0]): Closure(term[start : end - 1], env)}

    def take(self, term, at, env, made):
        """Takes a token, a group, or a function with its arguments, and returns what is behind."""
        it, before = term[at], term[at - 1] if at else "in"
        behind = term[at + 1] if at + 1 < len(term) else "in"
        if isinstance(it, tuple):
            is_applied = behind != "." and is_operand(behind) and is_operator(before)
            if is_applied and function_of(it):
                return self.apply(term, at, env, made)
            made.append((it[0], [self.term(part, env) for part in it[1]]))
        elif before == "." or not is_name(it):
            if it == BINDS or it in KEYWORDS and it not in ("if", "then", "else"):
                raise Unreadable(f"{it} stands alone")
            made.append(it)
        elif it in env:
            value = self.term(*env[it])
            made += value if len(units_of(value) or ()) == 1 else [("()", [value])]
        elif it in self.unknown:
            raise Unreadable(f"{it} depends on another field, or on where it stands")
        else:
            made.append(it)
        return at + 1

    def apply(self, term, at, env, made):
        """Applies a function to the arguments behind it."""
        names, body = function_of(term[at])
        inner, at, count = dict(env), at + 1, 0
        while count < len(names) and at < len(term) and is_operand(term[at]):
            end = unit_end(term, at)
            if term[at][0] == "{}":
                raise Unreadable("an implicit argument is given")
            inner[str(names[count])] = Closure(term[at:end], env)
            at, count = end, count + 1
        rest = ["λ", *names[count:], BINDS] if count < len(names) else []
        made.append(("()", [self.term([*rest, *body], inner)]))
        return at


def lean(term):
    """Leaves out brackets that say nothing."""
    made = []
    for at, it in enumerate(term):
        if isinstance(it, tuple):
            it = (it[0], [lean(part) for part in it[1]])
            if it[0] == "()" and len(it[1]) == 1 and says_nothing(it[1][0], term, at):
                made += it[1][0]
                continue
        made.append(it)
    return made


def says_nothing(inner, term, at):
    """Returns whether the brackets of a group around a term say nothing at a place of another."""
    units = units_of(inner)
    if not inner or ":" in inner:
        return False
    before = term[at - 1] if at else BINDS
    behind = term[at + 1] if at + 1 < len(term) else None
    is_all = before == BINDS and behind is None
    is_head = is_operator(before) and behind != "."
    return is_all or units is not None and (len(units) == 1 or is_head)


def normal(tokens):
    """Returns the tokens that those have in common that mean the same as these."""
    term = tree(tokens)
    for _ in range(PASSES):
        made = lean(Pass().term(term, {}))
        if made == term:
            return flat(made)
        term = made
    raise Unreadable("it has no end")
