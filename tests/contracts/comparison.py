"""Compares the items of two trees, those of the first mapped, and prints each difference."""
import collections
import pathlib
import re

from .maps import Names, exports_of
from .rattle_tokens import bound_in, is_word
from .records import Records
from .sources import DECLARED, DEFINITION, OTHER, PRIVATE, PUBLIC, read_tree
from .terms import Implied, Member, Unreadable, normal

LISTED, UNLISTED = "definitions that MODEL lists", "other definitions"
GROUPS = {
    PUBLIC: "public functions",
    PRIVATE: "private functions",
    OTHER: "types, constants and ghost items",
}
TOGETHER = "names that become one"
ORDER = (LISTED, GROUPS[PUBLIC], GROUPS[PRIVATE], UNLISTED, GROUPS[OTHER], TOGETHER)
# What is behind the name of a variant.
VARIANT_ENDS = ("(", "{", ",", "}", "=")
# How many differences of a group are printed, if not all.
SHOWN = 60


class Side:
    """A tree as it is compared: its names mapped, each as its whole path."""

    def __init__(self, tree, names, exports):
        self.names = names
        self.files, self.exports = read_tree(tree)
        self.exports.update(exports)
        model = pathlib.Path(tree, "docs/MODEL.md")
        text = model.read_text(encoding="utf-8") if model.is_file() else ""
        # The files with the definitions that MODEL lists.
        self.listed = set(re.findall(r"[\w.]+\.antt", text))
        self.modules = {tuple(it.base) for it in self.files}
        # What becomes of the fields of a name that a crate sees, of those that all see, of methods,
        # and of ghost items of traits.
        self.fields, self.methods = collections.defaultdict(set), collections.defaultdict(set)
        self.ghost_items = collections.defaultdict(set)
        # The items by what they are in the new tree, and what is wrong with names.
        self.items, self.together = {}, []
        # The file and the item of each record, by its path there.
        self.records = {}
        for file in self.files:
            for path in file.struct_fields:
                crate = file.crate if path in file.hidden else ""
                self.fields[crate, path[-1]].add(names.field(path))
            for path in file.fields:
                self.fields["", path[-1]].add(names.path(path)[-1])
            for path in file.ghost_items:
                self.ghost_items[path[-1]].add(names.field(path))
            for path in file.methods:
                self.methods[path[-1]].add(names.path(path)[-1])
        self.read_items()
        self.look_for_pairs()

    def look_for_pairs(self):
        """Finds the definitions, constructors and types that get the same path."""
        found = {}
        for file in self.files:
            own = [it for table in (file.code, file.ghosts) for it in table.values()]
            for path in {tuple(it) for it in own if it[: len(file.base)] == file.base}:
                new = self.names.path(path)
                if found.setdefault(new, path) != path:
                    both = " and ".join("::".join(it) for it in (found[new], path))
                    self.together.append(f"{file.path}: {both} become one name")

    def read_items(self):
        for file in self.files:
            for item in file.items:
                parts, bare = {}, {}
                for part, tokens in item.parts.items():
                    word, _, label = part.partition(" ")
                    label = self.names.label(item.scope, label)
                    parts[f"{word} {label}".strip()], some = self.normal(file, item, tokens)
                    bare.update(some)
                if len(parts) < len(item.parts):
                    self.together.append(f"{item.where}: {item.key}: labels become one name")
                olds = {}
                for old, new in bare.items():
                    if olds.setdefault(new, old) != old:
                        both = f"{olds[new]} and {old}"
                        self.together.append(f"{item.where}: {item.key}: {both} become one name")
                if item.record:
                    self.records["::".join(self.names.path(item.path))] = (file, item)
                key, count = self.key(file, item), 1
                while (*key, count) in self.items:
                    count += 1
                self.items[(*key, count)] = (item, parts)

    def key(self, file, item):
        """Returns what an item is in the new tree."""
        path = self.names.path(item.path)
        if item.group == DEFINITION:
            return DEFINITION, path
        words, is_function = item.key.split(" "), item.group in (PUBLIC, PRIVATE)
        is_declared = item.group == OTHER and words[-2:-1] and words[-2] in DECLARED
        for at, word in enumerate(words):
            if is_word(word) and (at < len(words) - 1 or is_declared):
                path_here = file.code.get(word, [*file.base, word])
                words[at] = self.names.path(self.resolved(path_here))[-1]
        if is_function:
            words[-1] = path[-1]
        if item.trait:
            words[-1] = self.names.field(self.resolved(item.trait))
        return "code", self.names.path(file.base), " ".join(words)

    def member(self, file, before, name):
        """Returns a field, a ghost item of a type before a dot, or in code maybe a method."""
        dot, name_here = "." if before[-1:] == ["."] else "", str(name)
        if dot and name.ghost and is_word(before[-2]) and before[-2][:1].isupper():
            options = self.ghost_items[name_here]
        else:
            options = self.fields["", name_here] | self.fields[file.crate, name_here]
        if not name.ghost:
            options = options | self.methods[name_here]
        return Member(f"{dot}{name}", {f"{dot}{it}" for it in options or {str(name)}})

    def sign(self, file, token):
        """Returns a part of an operator, as ≡ of ◌≡◌, with the operators that have it."""
        whole = file.ghosts.get(str(token))
        if whole:
            return "::".join(self.names.path(self.resolved(whole)))
        found = []
        for path in file.signs.get(str(token), ()):
            place = path[-1].split("◌").index(str(token))
            found.append(f"{'::'.join(self.names.path(self.resolved(list(path))))}@{place}")
        return " ".join(sorted(found)) or str(token)

    def resolved(self, path):
        """Returns where a path leads that others may export; a module may have an export's name."""
        seen = set()
        while True:
            fronts = (tuple(path[:end]) for end in range(len(path), 0, -1))
            fronts = (it for it in fronts if len(it) == len(path) or it not in self.modules)
            front = next((it for it in fronts if it in self.exports and it not in seen), None)
            if front is None:
                return path
            seen.add(front)
            path = [*self.exports[front], *path[len(front) :]]

    def normal(self, file, item, tokens):
        """Returns tokens, mapped, and what becomes of those names among them that have no path."""
        made, bare, bound, at = [], {}, item.bound | bound_in(tokens), 0
        head = item.key.split(" ")
        kind = head[-2] if item.group == OTHER and len(head) > 1 else ""
        while at < len(tokens):
            token, before = tokens[at], tokens[at - 1] if at else ""
            behind = tokens[at + 1] if at + 1 < len(tokens) else ""
            opens = before in ("{", ",", ";") and at
            is_value = behind == ("=" if token.ghost else ":") and kind not in ("struct", "enum")
            if not is_word(token) or before == "::":
                made.append(self.sign(file, token) if token.ghost else str(token))
            elif before == ".":
                made.append(self.member(file, tokens[max(0, at - 2) : at], token))
            elif item.trait and before == "ghost" and token == item.trait[-1]:
                made.append(self.names.field(self.resolved(item.trait)))
            elif id(token) in item.fields:
                inner = (*item.path, str(token))
                is_struct = kind == "struct"
                name = self.names.field(inner) if is_struct else self.names.path(inner)[-1]
                made.append(name)
            elif opens and is_value and (token.ghost or kind == "const"):
                made.append(self.member(file, [], token))
            elif kind == "enum" and before in ("{", ",", "]") and behind in VARIANT_ENDS:
                made.append(self.names.path((*item.path, str(token)))[-1])
            else:
                path, at = self.path_at(file, tokens, at, bound)
                if path:
                    made.append("::".join(self.names.path(path)))
                elif token.ghost and str(token) in file.signs:
                    made.append(self.sign(file, token))
                else:
                    bare[str(token)] = self.names.local(item.scope, str(token))
                    made.append(bare[str(token)])
            at += 1
        ends = zip(made, [*made[1:], ""])
        return [it for it, behind in ends if it != "," or behind not in (")", "}", "]", ">")], bare

    def path_at(self, file, tokens, at, bound):
        """Returns the path that begins here, or None, and the place of its last token."""
        token = tokens[at]
        if str(token) in bound:
            return None, at
        path = (file.ghosts if token.ghost else file.code).get(str(token))
        if token.ghost and not path:
            path = file.code.get(str(token))
        path = [file.crate] if token == "crate" else path
        sep = "." if token.ghost else "::"
        is_module = token.ghost and path and path[0] == "Rattle" and path[-1] != token
        while at + 2 < len(tokens) and tokens[at + 1] == sep and (not token.ghost or is_module):
            path, at = [*(path or [str(token)]), str(tokens[at + 2])], at + 2
            if token.ghost:
                break
        return self.resolved(path) if path else None, at


def compared(old_tree, new_tree, maps):
    """Returns what differs between two trees, the names of the first mapped."""
    exports = exports_of(maps)
    return Comparison(Side(old_tree, Names(maps), exports), Side(new_tree, Names([]), exports))


class Comparison:
    """What differs between two trees."""

    def __init__(self, old, new):
        self.said, self.counts = collections.defaultdict(list), collections.Counter()
        self.clauses, self.loose = collections.Counter(), []
        # How many clauses are fields of records that one tree has, and their implicit arguments.
        self.fields, self.implied = 0, []
        self.records = (Records(old, new), Records(new, old))
        self.listed = old.listed
        self.said[TOGETHER] = old.together
        for key, (item, parts) in old.items.items():
            self.counts[self.group(item)] += 1
            if key in new.items:
                self.compare(item, parts, *new.items[key])
            else:
                self.say(item, f"missing: {item.where}: {item.key}")
        for key, (item, _) in new.items.items():
            if key not in old.items:
                self.say(item, f"new: {item.where}: {item.key}")

    def group(self, item):
        if item.group != DEFINITION:
            return GROUPS[item.group]
        return LISTED if item.where.partition(":")[0].split("/")[-1] in self.listed else UNLISTED

    def say(self, item, line):
        self.said[self.group(item)].append(line)

    def compare(self, item, parts, other, others):
        """Compares an item with what it is in the new tree."""
        place, owners = f"{other.where}: {item.key}", {}
        if (item.group == PUBLIC) != (other.group == PUBLIC):
            self.say(item, f"differs: {place}: it is {other.group} now")
        if item.group in (PUBLIC, PRIVATE):
            parts, was = self.records[0].spread(parts, place)
            others, now = self.records[1].spread(others, place)
            owners = {part: (was.get(part), now.get(part)) for part in {**was, **now}}
        for part in {**parts, **others}:
            one, two = parts.get(part), others.get(part)
            if one is None or two is None:
                self.say(item, f"differs: {place}: {part} is {'new' if one is None else 'missing'}")
            else:
                one, two = self.alike(one, two) if part in owners else (one, two)
                self.compare_part(item, place, part, one, two)
        both = [[it for it in some if it in parts and it in others] for some in (parts, others)]
        for owner in {owners.get(it) for it in both[0]}:
            order, order_now = ([it for it in some if owners.get(it) == owner] for some in both)
            if order != order_now:
                self.say(item, f"differs: {place}: its clauses are in another order")

    def compare_part(self, item, place, part, one, two):
        """Compares the tokens of a part, and notes what was let through for what they don't say."""
        self.clauses[self.kind(item, part)] += 1
        at = self.first(one, two)
        if at is not None:
            texts = (" ".join(it[max(0, at - 3) : at + 5]) for it in (one, two))
            shown = " … → … ".join(texts)
            self.say(item, f"differs: {place}: {part}: … {shown} …")
        for was, now in zip(one, two):
            if isinstance(was, Member) and len(was.options) > 1:
                self.loose.append(f"{place}: {part}: {was} is {now}")
            for it in (was, now):
                line = f"{place}: {part}: {it} is {getattr(it, 'value', None)}"
                if isinstance(it, Implied) and line not in self.implied:
                    self.implied.append(line)

    def alike(self, one, two):
        """Returns what clauses are of which one is a field: what terms of one meaning share."""
        try:
            made = normal(one), normal(two)
        except Unreadable:
            return one, two
        self.fields += 1
        return made

    @staticmethod
    def kind(item, part):
        """Returns what a part of an item counts as."""
        if item.group == OTHER:
            return "invariant" if item.key.endswith(" ghost invariant") else "other"
        return part.split(" ")[0].strip("'")

    @staticmethod
    def first(old, new):
        """Returns the first place where two lists of tokens differ, or None."""
        for at, (one, other) in enumerate(zip(old, new)):
            if isinstance(other, Implied):
                one, other = other, one
            if isinstance(one, Implied):
                is_same = one.takes(other)
            else:
                is_same = one == other if not isinstance(one, Member) else str(other) in one.options
            if not is_same:
                return at
        return min(len(old), len(new)) if len(old) != len(new) else None

    def differences(self):
        """Returns how much differs."""
        return sum(map(len, self.said.values()))

    def lines(self, everything=False):
        """Gives each difference, and counts."""
        for name in ORDER:
            yield from self.said[name][: None if everything else SHOWN]
            if name == TOGETHER:
                yield f"{name}: {len(self.said[name])}"
            else:
                yield f"{name}: {self.counts[name]} compared, {len(self.said[name])} differences"
        words = {"signature": "signatures", "text": "definitions", "other": "other items"}
        counts = ", ".join(f"{n} {words.get(it, it)}" for it, n in sorted(self.clauses.items()))
        yield f"compared: {counts}"
        yield f"fields whose new name depends on their type: {len(self.loose)}"
        yield from (f"not read: {it}" for records in self.records for it in records.unread)
        counts = f"{self.fields}, with {len(self.implied)} implicit arguments"
        yield f"clauses that are fields of records that one tree has: {counts}"
