"""Reads the clauses of a function that applies a record as one clause for each of its fields."""
import itertools

from .rattle_tokens import BINDS, bound_in
from .sources import DEFINITION
from .terms import (
    Closure,
    Implied,
    Pass,
    Unreadable,
    binder_names,
    flat,
    names_at,
    normal,
    tree,
    units_of,
)

# What holds of the value in another if that is there: of a record of it just if of each field.
WRAPPERS = [f"Rattle::std::specs::Prelude::{it}" for it in ("IfOk", "IfErr", "IfSome")]
# The name of a value of which a clause says what it is, without naming it.
VALUE = "value#"


class Record:
    """A record as a clause applies it."""

    def __init__(self, parameters, fields):
        # Each parameter's name with whether it is explicit, and each field's label with its term.
        self.parameters, self.fields = parameters, fields

    def applied(self, arguments):
        """Returns the label and the term of each field for these arguments, or None."""
        count = sum(is_explicit for _, is_explicit in self.parameters)
        if len(arguments) != count or any(it[0][0] == "{}" for it in arguments):
            return None
        given = iter(arguments)
        values = [next(given) if shown else [Implied(name)] for name, shown in self.parameters]
        if not values:
            return self.fields
        front = ["λ", *(name for name, _ in self.parameters), BINDS]
        behind = list(itertools.chain(*values))
        return [(label, [("()", [[*front, *term]]), *behind]) for label, term in self.fields]


def parameters_of(head):
    """Returns the name of each parameter that a head has, with whether it is explicit."""
    found = []
    for it in tree(head):
        if it in (":", "where"):
            break
        names = binder_names(it)
        if isinstance(it, tuple) and not names:
            raise Unreadable("a parameter without a type")
        found += [(str(name), it[0] == "()") for name in names or ()]
    return found


def read_record(side, file, item):
    """Returns a record, its parameters with those of the modules around it."""
    own, fields = item.record
    if any(head[1] != "_" for head in item.heads):
        raise Unreadable("a module around it has a name")
    heads = [parameters_of(side.normal(file, item, it)[0]) for it in (*item.heads, own)]
    parameters = list(itertools.chain(*heads))
    # What stands for something in a part of the record alone, and in a field that follows.
    bound = {side.names.local(item.scope, it) for it in bound_in(item.parts["text"])}
    unknown = bound - {name for name, _ in parameters}
    if len({name for name, _ in parameters}) < len(parameters):
        raise Unreadable("two of its parameters have one name")
    env, made = siblings(side, file, item, heads), []
    for name, tokens, is_public in fields:
        if not is_public:
            raise Unreadable(f"{name} is private, so that nobody can use it as a clause")
        label = side.names.path((*item.path, str(name)))[-1]
        term = tree(side.normal(file, item, tokens)[0])
        made.append((label, Pass(unknown).term(term, env)))
        unknown = unknown | {str(name), label}
    return Record(parameters, made)


def siblings(side, file, item, heads):
    """Returns what the names of definitions stand for that share modules with an item: a reference
    among these doesn't say the parameters of the modules."""
    env = {}
    for other in file.items:
        if other.group == DEFINITION:
            pairs = zip(item.heads, other.heads)
            count = len(list(itertools.takewhile(lambda pair: pair[0] is pair[1], pairs)))
            names = [name for name, is_explicit in itertools.chain(*heads[:count]) if is_explicit]
            path = "::".join(side.names.path(other.path))
            if names:
                env[path] = Closure([path, *names], {})
    return env


class Records:
    """The records of a tree that another doesn't have, as the clauses of functions apply them."""

    def __init__(self, side, other):
        there = {"::".join(it[1]) for it in other.items if it[0] == DEFINITION}
        self.side, self.names = side, side.records.keys() - there
        # Those that were read, by their paths; and what could not be read.
        self.known, self.unread = {}, []

    def record(self, path):
        """Returns the record with a path, or None."""
        if path not in self.known:
            file, item = self.side.records[path]
            try:
                self.known[path] = read_record(self.side, file, item)
            except Unreadable as error:
                self.known[path] = None
                self.unread.append(f"{item.where}: {item.key}: {error}")
        return self.known[path]

    def spread(self, parts, place):
        """Returns the parts of a function, with a clause for each field of a record that one
        applies; and which part each such clause is of."""
        made, owners = {}, {}
        for part, tokens in parts.items():
            word, _, label = part.partition(" ")
            word, fields = word.rstrip("'"), None
            if word in ("requires", "ensures") and not label.startswith("inside "):
                fields = self.fields(tokens, f"{place}: {part}")
            for label, some in fields or [(None, tokens)]:
                name = f"{word} {label}" if fields else part.rstrip("'")
                while name in made:
                    name += "'"
                made[name] = some
                if fields:
                    owners[name] = part
        return made, owners

    def fields(self, tokens, place):
        """Returns the label and the tokens of each field of the record that a clause applies, or
        None."""
        if self.names.isdisjoint(tokens):
            return None
        try:
            fields = self.split(tree(normal(tokens)))
            return fields and [(label, normal(flat(term))) for label, term in fields]
        except Unreadable as error:
            self.unread.append(f"{place}: {error}")
            return None

    def split(self, term):
        """Returns the label and the term of each field of the record that a term applies, with
        what is around the record around each; or None."""
        units = units_of(term) or [[""]]
        if len(units[0]) == 1 and units[0][0] in self.names:
            record = self.record(units[0][0])
            return record and record.applied(units[1:])
        if units[0] not in ([it] for it in WRAPPERS) or len(units) != 3 or len(units[2]) != 1:
            return None
        inner, bound = units[2], [VALUE]
        if inner[0][0] == "()" and len(inner[0][1]) == 1:
            inner = inner[0][1][0]
        if inner[0] == "λ":
            bound, at = names_at(inner, 1, BINDS)
            fields = self.split(inner[at:])
        else:
            fields = self.split([*inner, VALUE])
        if not fields or len(bound) > 1:
            return None
        front = [*units[0], *units[1]]
        return [(label, [*front, ("()", [["λ", *bound, BINDS, *it]])]) for label, it in fields]
