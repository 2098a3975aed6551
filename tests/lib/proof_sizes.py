"""How large the code of functions is to the prover: as checks kept it, and as the compiler's code says that it is."""
import json
import os
import pathlib
import re
import sys
from typing import NamedTuple

ROOT = pathlib.Path(__file__).resolve().parent.parent.parent
sys.path.insert(0, str(ROOT / "tests"))
from wrong_bodies.record import Tree  # noqa: E402

# A function whose code takes more megabytes than this as the prover's steps is large.
BOUND = 6.0

# The megabytes of steps of any function, those of each statement of its code, and more of each for each lifetime and bound of its type.
FACTORS = (0.5, 0.032, 0.0028)

# What was measured of programs and tests, and how its file begins.
RECORD = ".ci/measured_sizes"
HEAD = [
    "# What checks kept of programs and of crates with tests, as bench/proof_sizes --record CRATE .. measured it and writes it here: a",
    "# digest of the sources and definitions, how many functions there are, and the large ones, each with its megabytes.",
]
UNMEASURED = "unmeasured"
ROW = re.compile(r"(\w+) (?:unmeasured|([0-9a-f]{16}) (\d+)((?: \S+ \d+\.\d)*))")
TEST = re.compile(r"(?m)^\s*#\[test\]")

# A module that a check of a crate kept, and its path in the crate.
MODULE = re.compile(r"Rattle-\w+?-(specs|proofs)\.(.*?)(?:\.decls)?\.oantt$")
# What the prover makes of a function, or of those of a recursion, each in a module of its own behind the path of the function.
PARTS = {
    *("Answers", "Bounds", "Carried", "Code", "Given", "Goals", "Instances", "Invariants", "Key", "Kinds", "Layout", "Locals"),
    *("Loops", "Lts", "Met", "Named", "Proof", "Reads", "Statement", "Symbol", "TheImpl", "TheLink", "Tie"),
}
# Those of them that have modules below.
WHOLES = {"Lts", "Code", "TheImpl"}


class Module(NamedTuple):
    """A module that a check kept."""

    # The function that it is of, or the recursion, whose last name begins with +, or what else it is about, in brackets.
    owner: str
    # Which part of a proof it is, and for which function of the recursion.
    part: str
    member: str
    # Whether it is the code of a function as steps.
    is_code: bool
    size: int
    written: float


def read_module(name):
    """What a module is of, and which part of it: the first four fields of a Module."""
    found = MODULE.match(name)
    if not found:
        return "(libraries)", "other", "", False
    path = found[2].split(".")
    if path[0] == "contracts":
        path = path[1:]
    elif found[1] == "specs":
        return "(definitions)", "definition", "", False
    at = max((k for k, word in enumerate(path) if word.partition("-")[0] in PARTS), default=0)
    if at and path[at - 1].partition("-")[0] in WHOLES:
        at -= 1
    part, _, member = path[at].partition("-") if path else ("", "", "")
    if at < 1 or len(path) - at > 1 + (part in WHOLES):
        return f"({'.'.join(path)})", "lemma", "", False
    is_code = part == "Lts" and at == len(path) - 1
    return "::".join(path[:at]), part, member.replace("-", "::"), is_code


def kept(folder):
    """The modules that the checks of a crate kept in its folder, in the order in which they were written."""
    modules = []
    for at, _, names in os.walk(folder / "out" / "incremental"):
        for name in names:
            if name.endswith(".oantt"):
                found = os.stat(os.path.join(at, name))
                owner, part, member, is_code = read_module(name)
                is_code = is_code and os.path.basename(at) != "records"
                modules.append(Module(owner, part, member, is_code, found.st_size, found.st_mtime))
    return sorted(modules, key=lambda it: it.written)


def sources(folder):
    """The text of all sources of a crate."""
    return "\n".join(path.read_text(encoding="utf-8") for path in sorted(folder.glob("src/**/*.rt")))


def is_there(name, text):
    """Whether a function is still in these sources, or is made by a derive or for a closure or a drop, as far as its name says."""
    *around, last = name.split("::")
    is_derived = around and around[-1][:1].isupper() and not re.search(rf"\b{re.escape(around[-1])}\b", text)
    return bool("+" in name or "fn" in around or is_derived or re.search(rf"\bfn {re.escape(last)}\b", text))


def kept_sizes(folder):
    """The megabytes of the steps of each function, as the last check of a crate kept them; a function that is gone may be kept, too."""
    sizes, text = {}, sources(folder)
    for it in kept(folder):
        if it.is_code:
            around = it.owner.split("::")[:-1]
            sizes["::".join([*around, it.member]) if it.member else it.owner] = it.size / 1e6
    return {name: size for name, size in sizes.items() if is_there(name, text)}


def library(folder):
    """The file in which a built library has the code that was made of its functions, in which each way out and each drop is written out."""
    return folder / "out" / "rlib" / f"{folder.name}.rlib" / "toolchain" / "mir.json"


def counts(folder):
    """What the factors are for, of each function of a built library: 1, its statements, and these for each lifetime and bound."""
    found = {}
    for name, code in json.loads(library(folder).read_bytes()):
        statements = sum(it not in ("Seq", "Skip") for it in code["body"])
        found[name.partition("::")[2]] = (1, statements, statements * (code["lifetimes"] + len(code["generics"]["bounds"])))
    return found


def estimated(row):
    """The megabytes that the steps of a function with these counts take."""
    return sum(factor * count for factor, count in zip(FACTORS, row))


class Measured(NamedTuple):
    """What was measured of a program or of a crate with tests: of which sources, how many functions, and the megabytes of large ones."""

    digest: str = UNMEASURED
    count: int = 0
    large: dict = {}

    def line(self, crate):
        large = [f"{name} {size:.1f}" for name, size in sorted(self.large.items())]
        return " ".join([crate, self.digest, *([str(self.count), *large] if self.digest != UNMEASURED else [])])


def read_record(root):
    """What was measured, by crate, and the lines that say nothing."""
    found, wrong = {}, []
    for line in (root / RECORD).read_text(encoding="utf-8").splitlines():
        row = ROW.fullmatch(line)
        if row and row[2]:
            words = row[4].split()
            found[row[1]] = Measured(row[2], int(row[3]), dict(zip(words[::2], map(float, words[1::2]))))
        elif row:
            found[row[1]] = Measured()
        elif not line.startswith("#"):
            wrong.append(line)
    return found, wrong


def write_record(root, found):
    """Writes what was measured, by crate."""
    lines = [found[crate].line(crate) for crate in sorted(found)]
    (root / RECORD).write_text("\n".join([*HEAD, *lines, ""]), encoding="utf-8")


def crates_in(root):
    """The folders of the crates, in the order of crates.txt."""
    return [root / "crates" / name for name in re.findall(r"(?m)^(\w+):", (root / "crates.txt").read_text(encoding="utf-8"))]


def is_library(folder):
    return (folder / "src" / "lib.rt").is_file()


def is_unseen(folder):
    """Whether this crate is a program or has tests, of which rt ci leaves no code."""
    return not is_library(folder) or TEST.search(sources(folder)) is not None


def digest_of(folder):
    """A digest of a crate's sources and definitions, in which comments and layout count for nothing."""
    return Tree(str(folder.parent.parent)).digest_of_one(folder.name, only_shown=False)[:16]
