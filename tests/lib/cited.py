"""What the documents say of the sources: contracts in PROVED.md, definitions in MODEL.md, wrong bodies, links and handles."""
import pathlib
import re

ROOT = pathlib.Path(__file__).resolve().parent.parent.parent
DOCS = ROOT / "docs"
# A function, and where the functions of a type or a trait begin and end.
HEADS = re.compile(
    r"(?m)^\}|^(?:pub )?(?:unsafe )?(?P<owner>(?:impl|trait)\b[^{]*)\{"
    r"|^\s*(?:pub(?:\(crate\))? )?(?:const )?fn (?P<name>\w+)"
)
HEADING = re.compile(r"#+ (.*)")
QUOTED = re.compile(r"`([^`]+)`")
# The head of the tables whose last column has contracts, and of that with the numbers of wrong bodies.
CONTRACTS = "| What | Contract of |"
WRONG = "| Crate | in `must-fail/`, tried by `rt ci` | in `wrong/`, tried by `./wrong-bodies` |"
DEFINITIONS = "| Definition | Means | In |"
# The section of the definitions that are in specs/code/.
BRIDGES = "## Towards the code"


def without_comments(path):
    text = path.read_text(encoding="utf-8")
    if path.suffix == ".antt":
        return re.sub(r"(?m)(?<![^\s(){},;])--.*", "", text)
    return re.sub(r"(?m)//.*", "", text)


def is_defined(name, text):
    """Whether a module of definitions or of code says at the beginning of a line what the name is."""
    words = r"(?:(?:pub(?:\(crate\))?|abbrev|unfoldable|data|record|private|open|type|fn|struct|enum|trait|ghost|const) +)*"
    return re.search(rf"(?m)^\s*{words}{re.escape(name)}(?![\w'])(?!\.)[^=\n]*(?::|where|\{{|\()", text) is not None


def leads_to(around, modules, owners):
    """Whether a path ends so: the last of the modules, in their order, or none, and then a type or a trait, or none."""
    inner = tuple(around[:-1] if around and around[-1] in owners else around)
    return modules[len(modules) - len(inner) :] == inner


class Crate:
    """The functions, types, clauses and definitions of a crate."""

    def __init__(self, folder):
        self.name = folder.name
        # The functions with a contract, each with its modules and the types and traits around it.
        self.functions, self.types, self.clauses = {}, set(), set()
        for path in sorted(folder.glob("src/**/*.rt")):
            self.read(path.relative_to(folder / "src").with_suffix("").parts, without_comments(path))
        self.definitions = [without_comments(path) for path in sorted(folder.glob("specs/**/*.antt"))]

    def read(self, modules, text):
        for name in re.findall(r"(?m)^\s*pub (?:struct|enum|trait|type) (\w+)", text):
            self.types.update("::".join((*modules[k:], name)) for k in range(len(modules) + 1))
        self.clauses.update(re.findall(r"(?:ensures|requires|invariant|ghost)\s+(\w+)\s*[{=:]", text))
        owners, is_of_trait = set(), False
        found = list(HEADS.finditer(text))
        for head, behind in zip(found, [*(it.start() for it in found[1:]), len(text)]):
            if head["name"]:
                if is_of_trait or re.search(r"\bensures\b", text[head.end() : behind]):
                    self.functions.setdefault(head["name"], []).append((modules, owners))
            else:
                owners = set(re.findall(r"\b[A-Z]\w+", head["owner"] or ""))
                is_of_trait = bool(re.search(r"\bfor\b|^trait\b", head["owner"] or ""))

    def has(self, cited):
        *around, name = cited.split("::")
        if any(leads_to(around, modules, owners) for modules, owners in self.functions.get(name, [])):
            return True
        if cited in self.types:
            return True
        return not around and (name in self.clauses or any(is_defined(name, it) for it in self.definitions))


def rows(lines, head):
    """The number and the cells of each row of the tables with this head, with the heading that they stand under."""
    heading, is_in = "", False
    for number, line in enumerate(lines, 1):
        found = HEADING.match(line)
        heading = found[1].strip("`") if found else heading
        is_in = line == head or is_in and line.startswith("|")
        if is_in and line != head and not line.startswith("|---"):
            yield number, heading, [cell.strip() for cell in line.strip().strip("|").split(" | ")]


def contract_faults(crates, lines):
    """What is wrong with the contracts that PROVED.md cites."""
    for number, heading, cells in rows(lines, CONTRACTS):
        where = f"docs/PROVED.md:{number}"
        names = QUOTED.findall(cells[-1])
        if heading not in crates:
            yield f"{where}: contracts of {heading}, which is no crate"
        elif not names and not cells[-1].startswith("the same"):
            yield f"{where}: no contract is cited"
        for name in names:
            others = [crates[heading], *crates.values()] if heading in crates else []
            if name not in crates and not any(it.has(name.removeprefix(f"{it.name}::")) for it in others):
                yield f"{where}: {name} is no contract"


def wrong_faults(lines):
    """What is wrong with the numbers of wrong bodies that PROVED.md says."""
    said, total = {}, 0
    for _, _, (crate, kept, others) in rows(lines, WRONG):
        said[crate.strip("`")] = (int(kept), int(others))
    found = {}
    for place, (folder, names) in enumerate((("crates", "*/must-fail/*.edit"), ("wrong", "*/*.edit"))):
        for path in (ROOT / folder).glob(names):
            crate = path.relative_to(ROOT / folder).parts[0]
            found.setdefault(crate, [0, 0])[place] += 1
            total += 1
    found = {crate: tuple(numbers) for crate, numbers in found.items()}
    for crate in sorted({*said, *found}):
        if said.get(crate) != found.get(crate):
            yield f"docs/PROVED.md: {crate} has {found.get(crate)} wrong bodies, and not {said.get(crate)}"
    if f"There are {total}:" not in lines:
        yield f"docs/PROVED.md: there are {total} wrong bodies"


def is_bridge(path):
    """Whether a file of definitions lies in specs/code, or in a folder there."""
    return path.relative_to(ROOT / "crates").parts[2] == "code"


def model_faults(lines):
    """What is wrong with the files and the names of definitions that MODEL.md says, and which files of specs/ it leaves out."""
    base, listed = ROOT, set()
    folders = {number: found[1] for number, line in enumerate(lines, 1) if (found := re.match(r"In `(crates/[\w/]*)`\.", line))}
    bridges = lines.index(BRIDGES) + 1
    for number, _, cells in rows(lines, DEFINITIONS):
        where = f"docs/MODEL.md:{number}"
        base = ROOT / folders[max(it for it in folders if it < number)]
        texts, last = [], base
        for name in QUOTED.findall(cells[2]):
            if not name.endswith((".antt", ".rt")):
                continue
            path = next((it / name for it in (base, last, ROOT / "crates") if (it / name).is_file()), None)
            if path is None:
                yield f"{where}: there is no {name}"
                continue
            texts.append(without_comments(path))
            last = path.parent
            listed.add(path)
            if path.suffix == ".antt" and is_bridge(path) != (number > bridges):
                yield f"{where}: {name} is {'a bridge' if is_bridge(path) else 'no bridge'}, and stands in another section"
        names = QUOTED.findall(cells[0])
        for group in re.findall(r"\(((?:`\w+`(?:, )?)+)\)", cells[1]):
            names += QUOTED.findall(group)
        for name in names:
            if re.fullmatch(r"\w{3,}", name) and name not in ("asm", "undef", "result") and not any(is_defined(name, it) for it in texts):
                yield f"{where}: {name} isn't defined in the files that are said"
    for path in sorted((ROOT / "crates").glob("*/specs/**/*.antt")):
        where = path.relative_to(ROOT)
        if path.name == "Lib.antt" or path.relative_to(ROOT / "crates").parts[2:] == ("code.antt",):
            continue
        if path.read_text(encoding="utf-8").startswith("-- Bridge to the code.") != is_bridge(path):
            yield f"{where}: the folder and the first line don't agree on whether the file is a bridge"
        if path not in listed and not is_bridge(path):
            yield f"{where}: MODEL.md lists no such file of definitions"


def anchors(text):
    """The anchors of a document's headings."""
    found, seen = set(), {}
    for heading in re.findall(r"(?m)^#+ (.*)$", re.sub(r"(?ms)^```.*?^```", "", text)):
        heading = re.sub(r"\[([^\]]*)\]\([^)]*\)", r"\1", heading)
        anchor = re.sub(r"[^\w\- ]", "", heading.lower()).replace(" ", "-")
        found.add(anchor if anchor not in seen else f"{anchor}-{seen[anchor]}")
        seen[anchor] = seen.get(anchor, 0) + 1
    return found


def link_faults(path):
    """What is wrong with the links of a document, and with the contracts that stand in links to PROVED.md."""
    text = re.sub(r"(?ms)^```.*?^```", "", path.read_text(encoding="utf-8"))
    for shown, link in re.findall(r"\[([^\]]*)\]\(([^)\s]+)\)", text):
        if link.startswith(("http:", "https:")):
            continue
        file, _, anchor = link.partition("#")
        target = (path.parent / file).resolve() if file else path
        where = path.relative_to(ROOT)
        if not target.exists():
            yield f"{where}: {link} leads nowhere"
        elif anchor and anchor not in anchors(target.read_text(encoding="utf-8")):
            yield f"{where}: {link}: there is no such heading"
        elif target.name == "PROVED.md" and file and (name := re.fullmatch(r"`([^`]+)`", shown)):
            lines = target.read_text(encoding="utf-8").split("\n")
            cited = {it for _, heading, cells in rows(lines, CONTRACTS) if heading == anchor for it in QUOTED.findall(cells[-1])}
            if name[1] != anchor and not any(it == name[1] or it.endswith(f"::{name[1]}") for it in cited):
                yield f"{where}: PROVED.md cites no {name[1]} of {anchor}"


def handle_faults():
    """Each source that names a handle of which PROVED.md says that no function takes it."""
    for path in sorted((ROOT / "crates").glob("*/src/**/*.rt")):
        if re.search(r"\b(?:Wait|Abort)\b", without_comments(path)):
            yield f"{path.relative_to(ROOT)}: PROVED.md says that no function takes a handle for waiting or for stopping"


def faults():
    """Each thing that a document says of the sources and that isn't so, in a line."""
    folders = [path for path in sorted((ROOT / "crates").iterdir()) if (path / "src").is_dir() or (path / "specs").is_dir()]
    crates = {path.name: Crate(path) for path in folders}
    proved = (DOCS / "PROVED.md").read_text(encoding="utf-8").split("\n")
    yield from contract_faults(crates, proved)
    yield from wrong_faults(proved)
    yield from model_faults((DOCS / "MODEL.md").read_text(encoding="utf-8").split("\n"))
    yield from handle_faults()
    for path in [ROOT / "README.md", ROOT / "examples" / "README.md", *sorted(DOCS.glob("*.md"))]:
        yield from link_faults(path)
