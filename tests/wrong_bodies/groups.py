"""Puts a crate's wrong bodies into groups that share a check.

In none does one edited function call another, directly or not, and no function is edited twice.
"""
import re
from collections import defaultdict

# The most that share a check.
MOST = 10
NAME = re.compile(r"[^\W\d]\w*")
# What a body may be made of that only takes apart and builds values of enums and structs.
BUILDS = re.compile(r": :|= >|\b[A-Z]\w* \(")
CALLS = re.compile(r"[^\w\s{}(),;:_|]|\w \(|\bfor\b")


class Calls:
    """Which functions of a crate may call which, by the names in bodies: rather too many."""

    def __init__(self, sources):
        self.functions = [it for file in sorted(sources) for it in sources[file].functions]
        self.by_name, self.by_owner = defaultdict(list), defaultdict(list)
        for function in self.functions:
            self.by_name[function.name].append(function)
            if function.owner and not function.trait:
                self.by_owner[function.owner].append(function)
        # Calls of a trait's methods are often not written: `?`, `==`, a drop, a generic call below.
        self.by_anyone = [it for it in self.functions if it.trait]
        self.renamed = {
            name
            for source in sources.values()
            for place, token in enumerate(source.tokens[:-1])
            if token in ("as", "type")
            for name in [source.tokens[place + 1]]
        }
        self.direct = {it: self.called_in(it, it.body) for it in self.functions}

    def called_in(self, function, body):
        """Returns the functions that a body of this function may call itself."""
        is_plain = not calls_unseen(body)
        found = {it for it in self.by_anyone if it.name == "drop" or not is_plain}
        for place, token in enumerate(body):
            if token in self.by_name:
                found.update(self.meant(function, body, place))
        return found

    def meant(self, function, body, place):
        """Returns the functions that the name at this place of a body may mean."""
        every = self.by_name[body[place]]
        before, after = body[max(place - 3, 0) : place], body[place + 1 : place + 3]
        if before[-1:] == ["."] and before[-2:] != [".", "."]:
            is_call = after[:1] == ["("] or after == [":", ":"]
            return [it for it in every if it.owner] if is_call else []
        if before[-2:] == [":", ":"] and len(before) == 3:
            owner = function.owner if before[0] == "Self" else before[0]
            return self.meant_of(owner, every)
        if after[:1] == [":"] and after != [":", ":"]:
            return []
        return [it for it in every if not it.owner]

    def meant_of(self, owner, every):
        """Returns which of these functions a path may mean, by what stands before the name."""
        if owner in self.renamed or not NAME.fullmatch(owner):
            return every
        if owner in self.by_owner:
            return [it for it in every if it.owner == owner]
        return [it for it in every if it.trait] if owner[0].isupper() else every

    def reached(self, edit):
        """Returns all that an edit's functions may call, directly or not, with it and without."""
        found, left = set(), []
        for function, body in edit.bodies.items():
            left += self.called_in(function, body)
        while left:
            function = left.pop()
            if function not in found:
                found.add(function)
                left += self.direct[function]
        return found


def calls_unseen(body):
    """Returns whether a body may call what it doesn't name, as `?` calls a conversion."""
    return bool(CALLS.search(BUILDS.sub(" ", " ".join(body))))


def groups_of(edits, sources):
    """Returns the groups of a crate's edits, each sorted by name, the groups by their first."""
    calls = Calls(sources)
    reached = {it: calls.reached(it) for it in edits if it.functions}
    apart = {it: {other for other in reached if are_apart(it, other, reached)} for it in reached}
    alone, shared = [[it] for it in edits if not it.functions], []
    for edit in sorted(reached, key=lambda it: (-len(apart[it]), it.name)):
        fits = (it for it in shared if len(it) < MOST and not apart[edit] & {*it})
        place = next(fits, None)
        if place is None:
            place = []
            shared.append(place)
        place.append(edit)
    made = [sorted(it, key=lambda edit: edit.name) for it in [*alone, *shared]]
    return sorted(made, key=lambda it: it[0].name)


def are_apart(one, other, reached):
    """Returns whether two edits need checks of their own."""
    if one is other:
        return False
    mine, others = {*one.functions}, {*other.functions}
    return bool(mine & (others | reached[other]) or others & reached[one])


def texts_with(edits, texts):
    """Returns the texts that edits change together, or why they can't stand beside each other."""
    made = {file: texts[file] for edit in edits for file, _, _ in edit.pairs}
    for edit in edits:
        why = edit.apply(made)
        if why:
            return None, why
    return made, None
