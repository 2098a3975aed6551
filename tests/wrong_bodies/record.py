"""The records wrong/CRATE/tried: of which tree they are, and which goal refuses each wrong body."""
import contextlib
import hashlib
import os
import tempfile

from .edits import ASIDE, RECORD, names_in, read, texts_of
from .failure import Failure
from .rattle_text import Source, tokens_of

HEAD = """\
# Which goal refuses each wrong body of {crate}: the body and its digest, the function that isn't
# proved with it, and the goal. The script wrong-bodies writes this file, and no hand.
"""


class Tree:
    """The crates of a repository and which use which, by crates.txt."""

    def __init__(self, root):
        self.root, self.lines, self.digests = root, {}, {}
        for line in read(f"{root}/crates.txt", "crates.txt").split("\n"):
            line = line.partition("#")[0].strip()
            if line:
                self.lines[line.partition(":")[0].split()[0]] = line

    def crates_with_edits(self):
        """Returns the crates that have wrong bodies or a record, in the order of crates.txt."""
        try:
            folders = sorted(it.name for it in os.scandir(f"{self.root}/wrong") if it.is_dir())
        except OSError as error:
            raise Failure(f"wrong/ can't be read: {error.strerror}") from None
        for name in folders:
            if name not in self.lines or not os.path.isdir(f"{self.root}/crates/{name}"):
                raise Failure(f"wrong/{name}: crates.txt and crates/ have no crate {name}")
        return [it for it in self.lines if it in folders and has_any(self.root, it)]

    def below(self, crate):
        """Returns the repository's crates that a crate uses, directly or not, sorted."""
        found, left = set(), [crate]
        while left:
            for name in self.lines[left.pop()].partition(":")[2].split():
                if name in self.lines and name not in found:
                    found.add(name)
                    left.append(name)
        return sorted(found)

    def digest_of_one(self, crate, only_shown):
        """Returns the digest of a crate's files and of its line in crates.txt."""
        if (crate, only_shown) not in self.digests:
            made = hashlib.sha256(self.lines[crate].encode())
            folder = f"{self.root}/crates/{crate}"
            for part in ("src", "specs"):
                for at, folders, names in os.walk(f"{folder}/{part}"):
                    folders.sort()
                    for name in sorted(names):
                        path = os.path.relpath(f"{at}/{name}", folder)
                        made.update(f"\n{path} {digest_of(f'{at}/{name}', only_shown)}".encode())
            self.digests[crate, only_shown] = made.hexdigest()
        return self.digests[crate, only_shown]

    def digest(self, crate):
        """Returns the digest of all that decides what a wrong body of the crate means.

        These are its own sources and definitions, and what the crates below show to it.
        """
        parts = [read(f"{self.root}/HANDLES", "HANDLES")]
        parts += [self.digest_of_one(it, only_shown=True) for it in self.below(crate)]
        parts.append(self.digest_of_one(crate, only_shown=False))
        return hashlib.sha256("\n".join(parts).encode()).hexdigest()

    def is_still(self, crate, digest):
        """Returns whether the sources are those of this digest, also after a while."""
        return Tree(self.root).digest(crate) == digest


def digest_of(path, only_shown):
    """Returns the digest of a file, or of what it shows to the crates above.

    Comments and layout of a source count for nothing. A check of a library reads of a source below
    it neither a body nor a function that isn't public.
    """
    if path.endswith(".rt"):
        text = read(path, path)
        made = Source(path, text).seen_above() if only_shown else tokens_of(text)
        return hashlib.sha256("\n".join(made).encode()).hexdigest()
    try:
        with open(path, "rb") as file:
            return hashlib.sha256(file.read()).hexdigest()
    except OSError as error:
        raise Failure(f"{path} can't be read: {error.strerror}") from None


def has_any(root, crate):
    """Returns whether there are wrong bodies of a crate, or a record of some."""
    return bool(names_in(root, crate)) or os.path.isfile(f"{root}/wrong/{crate}/{RECORD}")


class Record:
    """What wrong/CRATE/tried says."""

    def __init__(self, crate, toolchain, sources, tried, carried=()):
        self.crate, self.toolchain, self.sources = crate, toolchain, sources
        # By each edit's name its digest, and the function and the goal that refused it.
        self.tried = tried
        # The names of those that were tried on other sources.
        self.carried = set(carried)

    def text(self):
        """Returns the file's text, which ends in a sum of what stands before."""
        lines = [f"toolchain: {self.toolchain}", f"sources: {self.sources}"]
        lines += [f"carried: {' '.join(sorted(self.carried))}"] * bool(self.carried)
        lines += [f"{name}: {' '.join(self.tried[name])}" for name in sorted(self.tried)]
        text = HEAD.format(crate=self.crate) + "".join(f"{line}\n" for line in lines)
        return f"{text}sum: {hashlib.sha256(text.encode()).hexdigest()}\n"

    def write(self, root):
        """Writes the file aside and then puts it in its place."""
        folder, made = f"{root}/wrong/{self.crate}", None
        how = {"mode": "w", "encoding": "utf-8", "delete": False}
        try:
            with tempfile.NamedTemporaryFile(dir=folder, prefix=ASIDE, **how) as out:
                made = out.name
                out.write(self.text())
            os.chmod(made, 0o644)
            os.replace(made, f"{folder}/{RECORD}")
        except OSError as error:
            why = f"wrong/{self.crate}/{RECORD} can't be written: {error.strerror}"
            raise Failure(why) from None
        finally:
            with contextlib.suppress(OSError):
                os.remove(made or "")


def record_of(root, crate):
    """Returns a crate's record, or None and why there is none that holds."""
    path = f"wrong/{crate}/{RECORD}"
    if not os.path.isfile(f"{root}/{path}"):
        return None, "they were never tried"
    text = read(f"{root}/{path}", path)
    lines = [line for line in text.split("\n") if line and not line.startswith("#")]
    said = dict(line.partition(": ")[::2] for line in lines)
    said.pop("sum", None)
    try:
        toolchain, sources = said.pop("toolchain"), said.pop("sources")
    except KeyError:
        return None, f"{path} isn't whole"
    carried = said.pop("carried", "").split()
    tried = {name: words.split(" ", 2) for name, words in said.items()}
    made = Record(crate, toolchain, sources, tried, carried)
    is_whole = all(len(it) == 3 for it in tried.values()) and made.carried <= tried.keys()
    if made.text() != text or not is_whole:
        return None, f"{path} isn't as it was written"
    return made, None


def why_stale(tree, crate, edits, toolchain):
    """Returns why a crate's wrong bodies are to be tried anew, or None.

    Without a toolchain its identity isn't compared.
    """
    record, why = record_of(tree.root, crate)
    if not record:
        return why
    if record.sources != tree.digest(crate):
        return "its sources or definitions, or those below it, were changed since"
    if toolchain and record.toolchain != toolchain:
        return f"they were tried by another toolchain, {record.toolchain}"
    texts = texts_of(tree.root, crate)
    for it in edits:
        why = it.apply(dict(texts))
        if why:
            return f"{it.path}: {why}"
    digests = {it.name: it.digest for it in edits}
    tried = {name: words[0] for name, words in record.tried.items()}
    every = sorted({*digests, *tried})
    differ = [name for name in every if digests.get(name) != tried.get(name)]
    return f"added, changed or taken away, or not refused: {' '.join(differ)}" if differ else None
