"""Reads a specification into the trees of model.py, by the grammar of docs/REFERENCE.md. What is refused isn't looked for: the texts are right."""
import re

from model import Function, Named, Specification, Universe, lists

GAP = re.compile(r"(?:[ \t\r\n]+|//[^\n]*|/\*.*?\*/)+", re.DOTALL)
TOKEN = re.compile(r"[A-Za-z_][A-Za-z0-9_]*|[0-9]+|:=|!=|<=|>=|<-|->|\.\.|[(){},:=<>+*-]")
COMPARISONS = ("=", "!=", "<", "<=", ">", ">=")

# Of these, and of chains of them, a tree keeps the parentheses around them.
OPERATIONS = ("or", "and", *COMPARISONS, "+", "-", "*", "div", "mod")


class Marked(tuple):
    """A rule with the offset of a name in it: of the variable of a choose, or of what an assignment changes."""

    def __new__(cls, offset, *parts):
        made = super().__new__(cls, parts)
        made.offset = offset
        return made


def tokens_of(text):
    """The tokens, and the offset of each."""
    found, offsets, at = [], [], 0
    while at < len(text):
        part = GAP.match(text, at) or TOKEN.match(text, at)
        if part.re is TOKEN:
            found.append(part.group())
            offsets.append(at)
        at = part.end()
    return found, offsets


class Reader:
    """Reads from the front of some tokens."""

    def __init__(self, text):
        self.tokens, self.offsets = tokens_of(text)
        self.at = 0

    def next(self):
        return self.tokens[self.at] if self.at < len(self.tokens) else None

    def take(self):
        self.at += 1
        return self.tokens[self.at - 1]

    def offset(self):
        """Where the next token begins."""
        return self.offsets[self.at]

    def has(self, *words):
        """Takes the next token, if it is one of these."""
        if self.next() in words:
            return self.take()
        return None

    def wants(self, word):
        if self.take() != word:
            raise ValueError(f"token {self.at}: {self.tokens[self.at - 1]!r} in place of {word!r}")

    def separated(self, part, end):
        """Parts with commas between them, up to the end."""
        parts = [part()]
        while self.has(","):
            parts.append(part())
        self.wants(end)
        return parts

    # Items

    def specification(self):
        universes, functions, derived, rules, main = {}, [], {}, {}, None
        self.wants("CoreASM")
        self.take()
        while self.next() is not None:
            word = self.take()
            if word == "use":
                self.take()
            elif word == "init":
                main = self.take()
            elif word in ("enum", "universe"):
                name = self.take()
                self.wants("=")
                values = self.elements() if word == "enum" else self.interval()
                universes[name] = Universe(values, "")
            elif word == "function":
                functions.append((self.take(), self.take(), self.domain(), self.table() if self.has("initially") else None))
            else:
                name, parameters = self.take(), self.parameters()
                self.wants("=")
                body = self.term() if word == "derived" else self.rule()
                (derived if word == "derived" else rules)[name] = Named(parameters, body, "")
        made = Specification(universes, {}, {}, derived, rules, main)
        for kind, name, domain, table in functions:
            {"controlled": made.controlled, "static": made.static}[kind][name] = Function(domain, contents(made, domain, table), "")
        return made

    def elements(self):
        self.wants("{")
        return self.separated(self.take, "}")

    def interval(self):
        first = self.number()
        self.wants("..")
        return list(range(first, self.number() + 1))

    def number(self):
        return -int(self.take()) if self.has("-") else int(self.take())

    def domain(self):
        """The universes of the arguments. The codomain isn't looked at."""
        domain = []
        if self.has(":") and self.next() != "->":
            domain.append(self.take())
            while self.has("*"):
                domain.append(self.take())
        if self.has("->"):
            self.take()
        return domain

    def table(self):
        """One value, or one for each list of arguments."""
        if self.has("{"):
            return dict(self.separated(self.entry, "}"))
        return self.constant()

    def entry(self):
        self.wants("(")
        arguments = tuple(self.separated(self.constant, ")"))
        self.wants("->")
        return arguments, self.constant()

    def constant(self):
        token = self.next()
        return self.number() if token == "-" or token.isdigit() else self.take()

    def parameters(self):
        return self.separated(self.take, ")") if self.has("(") else []

    # Rules

    def rule(self):
        word = self.take()
        if word == "skip":
            return ("skip",)
        if word in ("par", "seq"):
            return (word, self.rules(f"end{word}"))
        if word == "if":
            return self.branch()
        if word == "let":
            name = self.take()
            self.wants("=")
            term = self.term()
            return ("let", name, term, self.behind("in", "endlet"))
        if word == "forall":
            name, universe, test = self.bound()
            return ("forall", name, universe, test, self.behind("do", "endforall"))
        if word == "choose":
            return self.choose()
        if word == "iterate":
            body = self.rule()
            self.wants("enditerate")
            return ("iterate", body)
        if word == "while":
            return ("while", self.term(), self.behind("do", "endwhile"))
        return self.named(word)

    def rules(self, end):
        parts = []
        while not self.has(end):
            parts.append(self.rule())
        return parts

    def behind(self, begin, end):
        self.wants(begin)
        body = self.rule()
        self.wants(end)
        return body

    def branch(self):
        test = self.term()
        self.wants("then")
        yes = self.rule()
        no = self.rule() if self.has("else") else None
        self.wants("endif")
        return ("if", test, yes, no)

    def bound(self):
        name = self.take()
        self.wants("in")
        return name, self.take(), self.term() if self.has("with") else None

    def choose(self):
        offset = self.offset()
        name, universe, test = self.bound()
        self.wants("do")
        body = self.rule()
        none = self.rule() if self.has("ifnone") else None
        self.wants("endchoose")
        return Marked(offset, "choose", name, universe, test, body, none)

    def named(self, word):
        """An assignment or a call."""
        offset = self.offsets[self.at - 1]
        target = ("result",) if word == "result" else ("name", word, self.arguments())
        if self.has(":="):
            return Marked(offset, "assign", target, self.term())
        if self.has("<-"):
            return ("call", target, self.take(), self.arguments())
        return ("call", None, word, target[2])

    # Terms

    def arguments(self):
        return self.separated(self.term, ")") if self.has("(") else []

    def chain(self, operand, *operations):
        term = operand()
        while operation := self.has(*operations):
            term = (operation, term, operand())
        return term

    def term(self):
        return self.chain(self.conjunction, "or")

    def conjunction(self):
        return self.chain(self.negation, "and")

    def negation(self):
        return ("not", self.comparison()) if self.has("not") else self.comparison()

    def comparison(self):
        left = self.sum()
        operation = self.has(*COMPARISONS)
        return (operation, left, self.sum()) if operation else left

    def sum(self):
        return self.chain(self.product, "+", "-")

    def product(self):
        return self.chain(self.factor, "*", "div", "mod")

    def factor(self):
        return ("minus", self.primary()) if self.has("-") else self.primary()

    def primary(self):
        token = self.take()
        if token.isdigit():
            return ("constant", int(token))
        if token in ("true", "false", "undef"):
            return ("constant", token)
        if token == "result":
            return ("result",)
        if token != "(":
            return ("name", token, self.arguments())
        kind = self.has("exists", "forall")
        inner = self.quantified(kind) if kind else self.term()
        self.wants(")")
        return ("(", inner) if inner[0] in OPERATIONS else inner

    def quantified(self, kind):
        name = self.take()
        self.wants("in")
        universe = self.take()
        self.wants("with" if kind == "exists" else "holds")
        return (kind, name, universe, self.term())


def contents(specification, domain, table):
    """What a table says of each list of arguments that it speaks of."""
    if table is None or isinstance(table, dict):
        return table or {}
    return {arguments: table for arguments in lists(specification, domain)}


def specification_of(text):
    return Reader(text).specification()


def term_of(text):
    return Reader(text).term()
