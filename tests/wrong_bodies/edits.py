"""Reads wrong bodies, the files wrong/CRATE/NAME.edit, and says which functions they change."""
import hashlib
import os
import re

from .failure import Failure
from .rattle_text import Source

NAME = re.compile(r"[A-Za-z0-9_-][A-Za-z0-9_.-]*\.edit")
PARTS = ("src", "specs", "proofs")
RECORD = "tried"
# How a record that is being written is named.
ASIDE = ".tried-"
PASSED_OVER = ("#", "--", "//")


class Edit:
    """A wrong body: its pairs of texts, by the file that they change."""

    def __init__(self, root, crate, name):
        self.crate, self.name = crate, name
        self.path = f"wrong/{crate}/{name}.edit"
        text = read(f"{root}/{self.path}", self.path)
        self.digest = hashlib.sha256(text.encode()).hexdigest()[:16]
        self.pairs = list(self.read_pairs(text))
        if not self.pairs:
            raise Failure(f"{self.path}: it has no 'old:' and 'new:' pair")
        # The functions whose bodies it changes; none where it changes anything else.
        self.functions = []
        # Their bodies before and with the edit, one behind the other.
        self.bodies = {}

    def read_pairs(self, text):
        """Gives each pair of texts, with its file."""
        file = old = None
        for line in text.split("\n"):
            if line.startswith("file: "):
                file = line[len("file: ") :].strip()
                if os.path.normpath(file) != file or file.split("/")[0] not in PARTS:
                    raise Failure(f"{self.path}: its 'file:' is none below {', '.join(PARTS)}")
            elif line.startswith("old: "):
                old = line[len("old: ") :]
            elif line.startswith("new:"):
                if not file or old is None:
                    raise Failure(f"{self.path}: a 'new:' stands before any 'file:' or 'old:'")
                yield file, old, line[len("new:") :].removeprefix(" ")
                old = None
            elif line.strip() and not line.startswith(PASSED_OVER):
                raise Failure(f"{self.path}: a line begins with none of file:, old: and new:")

    def apply(self, texts):
        """Changes the texts, by their paths in the crate, and says why where it can't."""
        for file, old, new in self.pairs:
            if file not in texts:
                return f"the crate has no {file}"
            found = texts[file].count(old)
            if found != 1:
                return f"an 'old:' stands in {file} {found} times, and not once"
            texts[file] = texts[file].replace(old, new)
        return None

    def look(self, texts, sources):
        """Finds out which functions it changes, in a crate with these texts."""
        mine = {file: texts[file] for file, _, _ in self.pairs if file in texts}
        was, why = dict(mine), self.apply(mine)
        if why:
            raise Failure(f"{self.path}: {why}")
        if mine == was:
            raise Failure(f"{self.path}: it changes nothing")
        bodies = {}
        for file, text in mine.items():
            after = Source(file, text) if file.startswith("src/") else None
            if not after or after.around != sources[file].around:
                return
            for one, other in zip(sources[file].functions, after.functions):
                if one.body != other.body:
                    bodies[one] = [*one.body, *other.body]
        if not any(it.is_law() for it in bodies):
            self.functions, self.bodies = list(bodies), bodies


def read(path, shown):
    """Returns the text of a file."""
    try:
        with open(path, encoding="utf-8") as file:
            return file.read()
    except (OSError, ValueError) as error:
        why = getattr(error, "strerror", None) or error
        raise Failure(f"{shown} can't be read: {why}") from None


def names_in(root, crate):
    """Returns the names of a crate's wrong bodies, sorted."""
    folder, found = f"{root}/wrong/{crate}", []
    for name in sorted(os.listdir(folder) if os.path.isdir(folder) else []):
        if NAME.fullmatch(name):
            found.append(name.removesuffix(".edit"))
        elif name != RECORD and not name.startswith(ASIDE) and not name.endswith(".md"):
            raise Failure(f"wrong/{crate}/{name}: a wrong body is a file NAME.edit")
    return found


def edits_of(root, crate):
    """Returns a crate's wrong bodies, by their names."""
    return [Edit(root, crate, name) for name in names_in(root, crate)]


def texts_of(root, crate):
    """Returns the texts that a wrong body of a crate may change, by their paths in it."""
    folder, found = f"{root}/crates/{crate}", {}
    for part in PARTS:
        for at, _, names in os.walk(f"{folder}/{part}"):
            for name in names:
                path = os.path.relpath(f"{at}/{name}", folder)
                if name.endswith((".rt", ".antt")):
                    found[path] = read(f"{at}/{name}", f"crates/{crate}/{path}")
    return found


def sources_of(texts):
    """Returns the sources among a crate's texts, read, by their paths.

    A check names a method by the module of its type, wherever the `impl` stands.
    """
    found = {file: Source(file, text) for file, text in texts.items() if file.startswith("src/")}
    homes = {name: source.module for source in found.values() for name in source.types()}
    for source in found.values():
        for method in source.functions:
            if not method.trait and method.owner not in source.types():
                method.module = homes.get(method.owner, method.module)
    return found
