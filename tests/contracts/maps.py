"""Maps of names: what was renamed between two trees.

A map has a row for each name: crate, kind, old and new, with tabs between them. What is old is
named as it was before any row of this map, by its whole path in the crate, and what is new by its
last name alone:

    module           src/MODULE.rt        summary                     totals or folder/totals
    type, constant   MODULE::NAME         summary::Summary            a trait is a type, too
    function         MODULE::NAME         fault::fault_at             lib::NAME of src/lib.rt
    method, field    MODULE::TYPE::NAME   summary::Summary::add       MODULE: where the impl is
    variant          MODULE::TYPE::NAME   fault::Fault::Clash
                     MODULE::TRAIT::NAME  job::Job::runs              a ghost item of a trait
    variable         FUNCTION::NAME       summary::Summary::add::low  a parameter is a variable
                     specs/FILE::NAME     specs/code/Listed::text     what a definition there binds
    clause           FUNCTION::LABEL      summary::Summary::add::low
    definition       FILE.NAME            Listed.put                  a constructor, too
                     FILE.RECORD.FIELD    Listed.IsListed.order       a field of a record
    definition-file  FILE                 Listed                      Places or code/Places
    proof-file       FILE                 Listed                      Places or code/Places
    export           FILE.NAME            Prelude.All                 List.All

Several maps hold one after another: the names that are old to the second are new to the first.
An export is no change, and holds for both trees: of two names of the toolchain's that mean the
same, both count as the second.
"""
import pathlib
import re

KINDS = (
    *("type", "function", "method", "constant", "variant", "variable", "field", "clause"),
    *("module", "definition", "definition-file", "proof-file", "export"),
)


def read_map(path):
    """Returns the rows of a map: (crate, kind, old, new)."""
    rows = []
    for number, line in enumerate(pathlib.Path(path).read_text(encoding="utf-8").splitlines(), 1):
        if line.strip() and not line.startswith("#"):
            row = tuple(cell.strip() for cell in line.split("\t"))
            if len(row) != 4 or row[1] not in KINDS or not all(row):
                kinds = ", ".join(KINDS)
                raise ValueError(f"{path}:{number}: a row is: crate, kind, old, new; {kinds}")
            rows.append(row)
    return rows


def exports_of(maps):
    """Returns what maps say of names that the toolchain exports, by their paths."""
    rows = [row for rows in maps for row in rows if row[1] == "export"]
    paths = [[["Rattle", row[0], "specs", *it.split(".")] for it in row[2:]] for row in rows]
    return {tuple(old): new for old, new in paths}


def without_lib(path):
    """Returns a path without the module lib, which paths don't name."""
    return (path[0], *path[2:]) if path[1:2] == ("lib",) else tuple(path)


class Step:
    """What one map makes of names."""

    def __init__(self, rows):
        self.paths, self.fields, self.locals, self.labels, self.known = {}, {}, {}, {}, {}
        for crate, kind, old, new in rows:
            if kind == "export":
                continue
            path = (crate, *old.replace("/", "::").split("::"))
            if kind in ("variable", "clause"):
                path = ("Rattle", *path) if path[1] == "specs" else path
                table = self.locals if kind == "variable" else self.labels
                table.setdefault(path[:-1], {})[path[-1]] = new
            elif kind.endswith("-file"):
                base = ("Rattle", crate, "specs" if kind == "definition-file" else "proofs")
                self.paths[(*base, *re.split(r"[./]", old))] = (*base, *re.split(r"[./]", new))
            elif kind == "definition":
                names = re.split(r"[./]", old)
                base = ("Rattle", crate, *(["specs"] if names[0] != "proofs" else []))
                made = new.split(".") if "." in new else (*names[:-1], new)
                self.paths[(*base, *names)] = (*base, *made)
            elif kind == "field":  # a method may have the same path
                self.fields[without_lib(path)] = new
            else:
                self.take_code(kind, without_lib(path), new)

    def take_code(self, kind, path, new):
        """Takes a row of the code: what definitions say of it has its path, too."""
        crate, names = path[0], path[1:]
        made = (*names[:-1], new) if kind != "module" else tuple(new.split("/"))
        self.paths[path] = (crate, *made)
        group = {"constant": ("TheConstants",), "variant": ("TheVariants",)}.get(kind, ())
        declared, contracts = (("Rattle", crate, "specs", it) for it in ("declared", "contracts"))
        grouped = made if kind == "module" else (*names[:-1], *group, new)
        self.paths[(*declared, *names[:-1], *group, names[-1])] = (*declared, *grouped)
        if kind in ("module", "type"):
            self.paths[(*contracts, *names)] = (*contracts, *made)
        if kind == "variant":
            for part, front in (("TheOpen", ""), ("TheVariants", "rolls-")):
                inner = (*declared, *names[:-1], part)
                self.paths[(*inner, front + names[-1])] = (*inner, front + new)
        if kind == "type":
            self.paths[(*declared, *names, names[-1])] = (*declared, *made, new)

    def path(self, path):
        """Maps a whole path: its longest front that the map has, and then what is before that."""
        if path not in self.known:
            self.known[path] = self.found_path(path)
        return self.known[path]

    def found_path(self, path):
        for end in range(len(path), 0, -1):
            new = self.paths.get(path[:end])
            if new:
                if new[:-1] == path[: end - 1] or path[end - 2 : end - 1] == path[end - 1 : end]:
                    new = (*self.path(path[: end - 1]), new[-1])
                was, now = path[end - 1], new[-1]
                rest = (
                    "-".join(now if it == was else it for it in part.split("-"))
                    if "-" in part
                    else part
                    for part in path[end:]
                )
                return (*new, *rest)
        if len(path) > 3 and path[0] == "Rattle" and path[2] == "proofs" and "-" in path[-1]:
            law, _, label = path[-1].partition("-")
            labels = self.labels.get((path[1], "laws", law), {})
            return (*path[:-1], f"{law}-{labels.get(label, label)}")
        return path

    def scope(self, scope):
        """Maps the path of a function, in which the module lib is named."""
        made = self.path(without_lib(scope))
        return (made[0], "lib", *made[1:]) if scope[1:2] == ("lib",) else made


class Names:
    """What maps make of names, one after another."""

    def __init__(self, maps):
        self.steps = [Step(rows) for rows in maps]

    def path(self, path):
        path = tuple(path)
        for step in self.steps:
            path = step.path(path)
        return path

    def local(self, scope, name):
        """Maps a variable of the function or the definition with this path."""
        for step in self.steps:
            for place in (scope, scope[:-1]):
                if name in step.locals.get(place, {}):
                    name = step.locals[place][name]
                    break
            scope = step.scope(scope)
        return name

    def label(self, scope, name):
        """Maps the label of a clause of the function with this path."""
        for step in self.steps:
            name = step.labels.get(scope, {}).get(name, name)
            scope = step.scope(scope)
        return name

    def field(self, path):
        """Maps a field of a struct or a ghost item of a trait, and returns its name."""
        path = tuple(path)
        for step in self.steps:
            path = (*step.path(path[:-1]), step.fields.get(path, path[-1]))
        return path[-1]
