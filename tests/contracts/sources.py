"""Reads the sources of a tree: of each file what it imports and exports, and its items."""
import pathlib
import re

from .maps import without_lib
from .rattle_tokens import CLAUSES, ENTRY, bound_in, closing, imports, is_word, tokens_of

HOLDERS = {"impl", "trait", "mod"}
DECLARED = ("struct", "enum", "const", "type", "static", "union")
# The group of an item.
PUBLIC, PRIVATE, OTHER, DEFINITION = "public", "private", "other", "definition"


class Item:
    """A function, a definition or another item, with its tokens by their parts."""

    def __init__(self, key, group, where, parts, path, scope):
        self.key, self.group, self.where, self.parts = key, group, where, parts
        # Its whole path, and the same as the maps name it, with the module lib.
        self.path, self.scope = path, scope
        # The names that it binds for all its parts; which of its tokens declare fields.
        self.bound, self.fields = set(), set()
        # Of a ghost item the path of the trait that has it, as the file names that, and its name.
        self.trait = None
        # Of a definition the heads of the modules around it; of a record its own head, and each
        # field's name, with its type and whether it is public.
        self.heads, self.record = [], None


class File:
    """A file, read."""

    def __init__(self, tree, path, crates):
        self.path, self.crates = path.relative_to(tree).as_posix(), crates
        parts = self.path.split("/")
        self.crate, self.module, self.items = parts[1], [*parts[3:-1], path.stem], []
        self.is_code = path.suffix == ".rt"
        self.base = ["Rattle", self.crate, "specs", *self.module]
        if self.is_code:
            self.base = list(without_lib((self.crate, *self.module)))
        # What names are: in code, in the ghost language, and elsewhere by its exports.
        self.code, self.ghosts, self.exports = {}, {}, {}
        # The parts of operators as ≡ of ◌≡◌, with the operators' paths.
        self.signs = {}
        # What it declares, by paths: fields of structs, those of records and variants, methods, and
        # ghost items of traits; and which of the fields only its crate sees.
        self.struct_fields, self.fields, self.methods = set(), set(), set()
        self.ghost_items, self.hidden = set(), set()
        text = path.read_text(encoding="utf-8")
        tokens = tokens_of(text, not self.is_code)
        if self.is_code:
            self.read_code(tokens, 0, len(tokens), [])
        else:
            self.read_entries(text, tokens)
        for name, whole in self.ghosts.items():
            for part in name.split("◌") if "◌" in name else ():
                if part:
                    self.signs.setdefault(part, set()).add(tuple(whole))

    def take_use(self, tokens):
        """Takes over what a `use` imports, and exports."""
        is_exported = tokens[0] == "pub"
        for name, path in imports(tokens):
            if self.is_code and path[0] in ("crate", "self", "super"):
                front = {"crate": [self.crate], "self": self.base, "super": self.base[:-1]}
                path = [*front[path[0]], *path[1:]]
            is_ghost = tokens[0] == "ghost" or not self.is_code
            (self.ghosts if is_ghost else self.code)[name] = path
            if is_exported:
                is_whole = not self.is_code or path[0] in self.crates
                self.exports[(*self.base, name)] = path if is_whole else [*self.base, *path]

    def read_code(self, tokens, at, end, owner):
        """Reads the items between two places of a .rt file."""
        while at < end:
            start = at
            while at < end and tokens[at] == "#":
                at = closing(tokens, at + 1 + (tokens[at + 1] == "!")) + 1
            attributes, head_at = tokens[start:at], at
            while at < end and tokens[at] not in ("{", ";", *CLAUSES[:3]):
                at = closing(tokens, at) + 1 if tokens[at] in ("(", "[") else at + 1
            head = tokens[head_at:at]
            if at >= end:
                break
            if "use" in head[:3]:
                at = next(it for it in range(at, end) if tokens[it] == ";")
                self.take_use(tokens[head_at:at])
            elif "fn" in head and not set(DECLARED[:4]) - {"const"} & set(head[: head.index("fn")]):
                at = self.read_function(tokens, head_at, at, end, owner)
            elif tokens[at] == "{" and HOLDERS & set(head[:3]) and "ghost" not in head:
                last = closing(tokens, at)
                is_module = "mod" in head[:3]
                inner = head[head.index("mod") + 1 :] if is_module else [" ".join(head)]
                self.read_code(tokens, at + 1, last, [*owner, *inner])
                at = last
            else:
                if tokens[at] == "{":
                    at = closing(tokens, at)
                    at += at + 1 < end and tokens[at + 1] == ";"
                if head and "mod" not in head[:2]:
                    derived = attributes if "derive" in attributes and "ghost" not in head else []
                    text = [*derived, *tokens[head_at : at + 1]]
                    self.read_other(head, text, owner)
            at += 1

    def read_other(self, head, text, owner):
        """Reads a type, a constant or a ghost item."""
        words = [it for it in head if is_word(it) and it not in ("pub", "crate", "unsafe", "mut")]
        name = str(words[1]) if len(words) > 1 else ""
        if words[:1] and words[0] in DECLARED:
            self.code.setdefault(name, [*self.base, name])
        item = self.add(" ".join([*owner, *words[:2]]), OTHER, head[0], {"text": text}, owner, name)
        if owner and words[0] == "ghost":
            self.take_ghost(item, owner[-1], name)
        if words[:1] and words[0] in ("struct", "enum"):
            for before, it, behind in zip(text, text[1:], text[2:]):
                if behind == ":" and is_word(it) and before in ("{", ",", "]", "pub", ")", "ghost"):
                    is_field = words[0] == "struct"
                    path = (*self.base, name, str(it))
                    (self.struct_fields if is_field else self.fields).add(path)
                    if is_field and before != "pub":
                        self.hidden.add(path)
                    item.fields.add(id(it))

    def take_ghost(self, item, owner, name):
        """Takes over a ghost item of a trait, or of an impl of one."""
        head = re.sub(r"^impl (< .*? > (?=\w))?|^(pub )?trait ", "", owner)
        trait = re.match(r"\w+", head)[0] if " for " in owner or "trait " in owner else None
        if trait:
            item.trait = [*self.code.get(trait, [*self.base, trait]), name]
        if "trait " in owner:
            self.ghost_items.add(tuple(item.trait))

    def read_function(self, tokens, at, place, end, owner):
        """Reads a function whose head is between two places, and returns where it ends."""
        fn = tokens.index("fn", at)
        name = str(tokens[fn + 1])
        parts = {"signature": [*tokens[at : fn + 1], *tokens[fn + 2 : place]]}
        signature_end = place
        while place < end and tokens[place] in CLAUSES:
            brace = place + 1 + (tokens[place + 1] != "{")
            last = closing(tokens, brace)
            label = " ".join(tokens[place:brace])
            while label in parts:
                label += "'"
            parts[label] = tokens[brace + 1 : last]
            place = last + 1
        head = owner[-1].split() if owner else []
        is_public = "for" in head or "trait" in head[:2]
        is_public = is_public or tokens[at] == "pub" and tokens[at + 1] != "("
        group = PUBLIC if is_public else PRIVATE
        item = self.add(" ".join([*owner, name]), group, tokens[fn], parts, owner, name)
        item.bound = bound_in(tokens[fn:signature_end])
        if owner:
            self.methods.add(item.path)
        last, count = closing(tokens, place) if place < end and tokens[place] == "{" else place, 0
        for it in range(place, last - 2):  # the clauses in its body, of closures and loops
            if tokens[it] in CLAUSES and not tokens[it].ghost and "{" in tokens[it + 1 : it + 3]:
                brace = it + 1 + (tokens[it + 1] != "{")
                clause = tokens[it + 1 : brace] + tokens[brace + 1 : closing(tokens, brace)]
                count += 1
                parts[f"{tokens[it]} inside {count}"] = clause
        return last

    def add(self, key, group, first, parts, owner, name):
        """Adds an item, and returns it."""
        kind = []
        if owner:
            head = re.sub(r"\s*([<>])\s*", r"\1", owner[-1])
            kind = re.sub(r"^impl(<.*?>)?\s*|.*\bfor | where .*|<.*", "", head).split()[-1:]
        scope = (self.crate, *self.module, *kind, name)
        item = Item(key, group, f"{self.path}:{first.line}", parts, without_lib(scope), scope)
        self.items.append(item)
        return item

    def read_entries(self, text, tokens):
        """Reads the definitions of a .antt file, each with the heads of the modules around it."""
        chunks, starts = chunks_of(text, tokens)
        entries, last = {}, None
        for chunk, heads in chunks:
            if "use" in chunk[:2]:
                self.take_use(chunk)
                continue
            if "mod" in chunk[:2]:
                continue
            words = [it for it in chunk if it not in ENTRY]
            is_start = chunk[0] in ENTRY or len(words) > 1 and words[1] == ":"
            if is_start or str(chunk[0]) in entries:
                last = str(words[0])
            if last not in entries:
                path = (*self.base, last)
                where = f"{self.path}:{chunk[0].line}"
                parts = {"text": [it for head in heads for it in head]}
                entries[last] = Item(last, DEFINITION, where, parts, path, path)
                entries[last].heads = [it for it in heads if it[0] == "module"]
            entries[last].parts["text"] += chunk
            self.read_inner(entries[last], chunk, starts)
        self.ghosts.update((name, [*self.base, name]) for name in entries)
        self.items += entries.values()

    def read_inner(self, item, chunk, starts):
        """Reads the constructors of a data type and the fields of a record."""
        heads = {"data", "record"} & set(chunk[:4]) if chunk[0] in ENTRY else ()
        if not heads:
            return
        places = []  # of fields
        for at, (before, it, behind) in enumerate(zip(chunk, chunk[1:], chunk[2:]), 1):
            if behind == ":" and (id(it) in starts or before in ENTRY and id(before) in starts):
                if "data" in heads:
                    self.ghosts.setdefault(str(it), [*self.base, str(it)])
                elif it.line != chunk[0].line:
                    self.fields.add((*item.path, str(it)))
                    item.fields.add(id(it))
                    places.append(at)
        if places:
            starts_at = [it - (chunk[it - 1] in ENTRY) for it in places]
            ends = [*starts_at[1:], len(chunk)]
            fields = [
                (chunk[at], chunk[at + 2 : end], chunk[at - 1] == "pub")
                for at, end in zip(places, ends)
            ]
            item.record, item.bound = (chunk[: starts_at[0]], fields), bound_in(item.parts["text"])


def chunks_of(text, tokens):
    """Returns the declarations and the cases of a .antt file, each with the heads of the blocks
    around it; and which tokens begin a line."""

    def column(token):
        return token.at - text.rfind("\n", 0, token.at) - 1

    blocks, chunk, chunks, starts, line = [], [], [], set(), 0
    for token in tokens:
        if token.line != line:
            starts.add(id(token))
            while blocks and column(token) <= blocks[-1][0]:
                blocks.pop()
            if blocks and blocks[-1][2] is None:
                blocks[-1] = (*blocks[-1][:2], column(token))
            if column(token) == (blocks[-1][2] if blocks else 0):
                chunk = []
                chunks.append((chunk, [block[1] for block in blocks]))
        line = token.line
        chunk.append(token)
        is_block = token == "where" and chunk[0] == "module"
        if is_block or token == "mutual" and len(chunk) < 3:
            blocks.append((column(chunk[0]), chunks.pop()[0], None))
    return chunks, starts


def read_tree(tree):
    """Returns the files of a tree, and what they export, by the paths that this has."""
    tree = pathlib.Path(tree)
    crates = {it.name for it in tree.glob("crates/*")} | {"std", "core", "alloc", "Rattle"}
    files = [
        File(tree, path, crates)
        for part in ("src/**/*.rt", "specs/**/*.antt")
        for path in sorted(tree.glob(f"crates/*/{part}"))
    ]
    if not files:
        raise ValueError(f"{tree}: there are no crates/*/src/*.rt and no crates/*/specs/*.antt")
    return files, {name: path for it in files for name, path in it.exports.items()}
