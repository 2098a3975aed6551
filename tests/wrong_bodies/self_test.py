"""Tries the script itself on a small tree, by the wrong bodies of one crate.

A harmless edit is let through, a record that isn't the tree's is refused, and what is missing is
said in one line.
"""
import contextlib
import io
import os
import re
import shutil
import subprocess
import tempfile

from . import command, toolchain
from .edits import PARTS, RECORD
from .record import Record, Tree, record_of
from .trying import Crate, try_group

CRATE = "asm_state"
# A wrong body, a harmless edit of its caller, and another wrong body.
CALLEE, CALLER, OTHER = "a_callee_is_wrong", "b_caller_means_the_same", "c_other_is_wrong"
EDITS = {
    CALLEE: ("universe", "(value + CODE_OF_ZERO) as u64", "(value + CODE_OF_ZERO) as u64 / 2"),
    CALLER: ("universe", "let code = value.code();", "let code = value.code(); let _same = code;"),
    OTHER: ("state", "self.contents.as_slice().to_vec(alloc)?", "Vec::new(alloc)"),
}


class Test:
    """A tree of one crate, and what was found on it."""

    def __init__(self, root, room):
        self.root, self.failed = room, 0
        self.wrong, self.record = f"{room}/wrong/{CRATE}", f"wrong/{CRATE}/{RECORD}"
        crate = f"crates/{CRATE}"
        os.makedirs(f"{room}/{crate}")
        os.makedirs(self.wrong)
        for part in PARTS:
            shutil.copytree(f"{root}/{crate}/{part}", f"{room}/{crate}/{part}")
        # What earlier checks kept is only read.
        os.makedirs(f"{room}/{crate}/out")
        if os.path.isdir(f"{root}/{crate}/out/incremental"):
            os.symlink(f"{root}/{crate}/out/incremental", f"{room}/{crate}/out/incremental")
        else:
            os.mkdir(f"{room}/{crate}/out/incremental")
        shutil.copyfile(f"{root}/HANDLES", f"{room}/HANDLES")
        self.write("crates.txt", f"{CRATE}:\n")
        for name in EDITS:
            self.put(name, *EDITS[name])

    def write(self, path, text):
        with open(f"{self.root}/{path}", "w", encoding="utf-8") as out:
            out.write(text)

    def read(self, path):
        with open(f"{self.root}/{path}", encoding="utf-8") as file:
            return file.read()

    def put(self, name, module, old, new):
        """Writes a wrong body."""
        text = f"file: src/{module}.rt\nold: {old}\nnew: {new}\n"
        self.write(f"wrong/{CRATE}/{name}.edit", text)

    def take(self, name):
        os.remove(f"{self.wrong}/{name}.edit")

    def expect(self, what, holds, said=""):
        """Says whether something is as it has to be."""
        self.failed += not holds
        print(f"{'ok' if holds else 'FAILED'}: {what}", flush=True)
        if not holds:
            print(said, end="")

    def expect_run(self, what, words, status, pattern):
        """Runs the script, and looks at its status and at what it says."""
        said = io.StringIO()
        with contextlib.redirect_stdout(said), contextlib.redirect_stderr(said):
            found = command.main(self.root, words)
        holds = found == status and bool(re.search(pattern, said.getvalue()))
        self.expect(what, holds, f"status {found}\n{said.getvalue()}")


def bad_input(test):
    """What is missing is said in one line."""

    def line(pattern):
        return rf"\Awrong-bodies: [^\n]*{pattern}[^\n]*\n\Z"

    test.expect_run("an unknown crate", ["asm_nowhere"], 2, line("asm_nowhere"))
    test.expect_run("an unknown wrong body", [f"{CRATE}/nowhere"], 2, line("nowhere"))
    test.put("d_twice", "state", "self.contents", "self.contents")
    test.expect_run("an old text that stands often", [CRATE], 2, line("d_twice.*times"))
    test.put("d_twice", "nowhere", "old", "new")
    test.expect_run("a file that isn't there", [CRATE], 2, line("d_twice.*no src/nowhere.rt"))
    test.write(f"wrong/{CRATE}/d_twice.edit", "")
    test.expect_run("an edit cut short", [CRATE], 2, line("d_twice.*no 'old:'"))
    test.take("d_twice")
    os.mkdir(f"{test.root}/wrong/asm_nowhere")
    test.expect_run("a folder of no crate", ["--stale"], 2, line("wrong/asm_nowhere"))
    os.rmdir(f"{test.root}/wrong/asm_nowhere")
    path, os.environ["PATH"] = os.environ["PATH"], "/nowhere"
    test.expect_run("no toolchain", [CRATE], 2, line("no rt on the PATH"))
    os.environ["PATH"] = path


def harmless_edit(test):
    """A harmless edit in a caller of a wrong body isn't taken for refused, apart or together."""
    crate = Crate(Tree(test.root), CRATE)
    groups = [{it.name for it in group} for group in crate.groups()]
    share = any({CALLEE, CALLER} <= it for it in groups)
    test.expect("caller and callee share no check", not share)
    verdicts = try_group(toolchain.Toolchain(test.root, 1), crate, crate.edits)
    is_refused = {it.edit.name: it.is_refused() for it in verdicts}
    test.expect("where they do all the same, the wrong callee is refused", is_refused[CALLEE])
    test.expect("its harmless caller is let through", not is_refused[CALLER])
    test.expect("and another wrong body beside them is refused", is_refused[OTHER])
    test.expect_run("a harmless edit fails", [CRATE], 1, f"{CALLER}: NOT REFUSED: let through")
    test.expect_run("and makes the record stale", ["--stale"], 1, f"not refused: {CALLER}\n")
    test.take(CALLER)
    os.remove(f"{test.root}/{test.record}")


def records(test):
    """Only a record of this tree, as the script wrote it, is taken."""
    test.expect_run("what was never tried is stale", ["--stale"], 1, "never tried")
    test.expect_run("wrong bodies alone pass", [CRATE], 0, "2 wrong bodies(.|\n)*refused: 0")
    test.expect_run("what was tried isn't stale", ["--stale"], 0, r"\A\Z")
    test.expect_run("and isn't tried twice", [CRATE], 0, r"\Awrong bodies that aren't refused: 0")
    text = test.read(test.record)
    test.expect_run("but where all is tried anew", ["--anew", CRATE], 0, "2 wrong bodies")
    test.expect("which writes the same", test.read(test.record) == text)
    for what, other in (
        ("another goal", re.sub(r"(\S+)\n(?=sum)", r"\1-too\n", text)),
        ("a line less", re.sub(rf"{OTHER}.*\n", "", text)),
        ("another digest", re.sub(r"sources: .", "sources: x", text)),
        ("half its text", text[: len(text) // 2]),
    ):
        test.write(test.record, other)
        test.expect_run(f"a record with {what} is stale", ["--stale"], 1, f"wrong-bodies {CRATE}")
    test.write(test.record, text)
    forged = record_of(test.root, CRATE)[0]
    forged.tried = {it: [*words[:2], f"{words[2]}-too"] for it, words in forged.tried.items()}
    forged.write(test.root)
    test.expect_run("one with forged goals and their sum isn't", ["--stale"], 0, r"\A\Z")
    test.expect_run("but a sample finds it out", ["--sample"], 1, "tried has another goal: .*-too")
    test.write(test.record, text)
    test.expect_run("a sample of a true record passes", ["--sample"], 0, "refused by")
    source = f"crates/{CRATE}/src/state.rt"
    text = test.read(source)
    test.write(source, f"{text}\n// A comment.\n")
    test.expect_run("a comment doesn't make it stale", ["--stale"], 0, r"\A\Z")
    old = EDITS[OTHER][1]
    test.write(source, f"{text}\n// {old}\n")
    test.expect_run("an old text that stands twice does", ["--stale"], 1, f"{OTHER}.*2 times")
    test.write(source, f"{text}\nconst NOTHING: u64 = 0;\n")
    test.expect_run("a changed source makes it stale", ["--stale"], 1, "sources or definitions")
    test.write(source, text)


def carried(test):
    """A record holds for functions that are as they were, and only for those."""

    def git(*words):
        name = ["-c", "user.name=Test", "-c", "user.email=test@localhost"]
        command = ["git", "-C", test.root, *name, *words]
        subprocess.run(command, check=True, stdout=subprocess.DEVNULL)

    tree, source = Tree(test.root), f"crates/{CRATE}/src/state.rt"
    tried = {it.name: [it.digest, "state::some", "goal"] for it in Crate(tree, CRATE).edits}
    Record(CRATE, toolchain.version(), tree.digest(CRATE), tried).write(test.root)
    git("init", "-q")
    git("add", "crates.txt", "HANDLES", "wrong", *(f"crates/{CRATE}/{it}" for it in PARTS))
    git("commit", "-qm", "tried")
    text, old = test.read(source), EDITS[OTHER][1]
    test.write(source, f"{text}\nconst NOTHING: u64 = 0;\n")
    test.expect_run("what is as it was is carried over", ["--carry", "HEAD"], 0, "tried: none\n")
    test.expect_run("which is counted", ["--stale"], 0, f"carried over: {len(tried)}\n")
    test.write(source, text.replace(old, f"{{ let _same = 0; {old} }}"))
    test.expect_run("what changed isn't", ["--carry", "HEAD"], 0, f"tried: {OTHER}\n")
    test.expect_run("and is stale", ["--stale"], 1, f"not refused: {OTHER}\n")
    test.expect_run("a commit that isn't there", ["--carry", "nowhere"], 2, "no commit")
    test.write(source, text)
    test.put("one_more", *EDITS[OTHER])
    test.expect_run("one more is left to try", ["--carry", "HEAD"], 0, "tried: one_more\n")
    found = record_of(test.root, CRATE)[0]
    test.expect("what was tried on these sources wasn't carried", not found.carried)
    test.take("one_more")


# A source of a crate below, and what changes in it.
BELOW = """\
ghost use Rattle.std.specs.Prelude.{◌≡◌, ◌+◌};

/// Twice.
pub fn twice(n: u64) -> u64
    ensures { result ≡ n + n }
{
    sum(n, n)
}

/// The sum.
#[inline(always)]
pub(crate) fn sum(n: u64, m: u64) -> u64 { n + m }

impl Pair { fn left(&self) -> u64 { self.0 } }
"""
HIDDEN = {
    "a comment": ("/// Twice.", "/// Two times."),
    "a body": ("sum(n, n)", "n + n"),
    "a function that isn't public": ("m: u64", "k: u64"),
    "a method that isn't public": ("fn left", "fn first"),
    "a name that no clause uses": ("◌+◌", "◌+◌, ◌≤◌"),
}
SHOWN = {
    "a name that a clause uses": ("◌+◌", "◌-◌"),
    "a clause": ("n + n }", "n + n + n }"),
    "a public function": ("twice(n: u64)", "twice(n: u32)"),
    "a function that is made public": ("pub(crate) fn", "pub fn"),
    "a method of a trait": ("impl Pair {", "impl Left for Pair {"),
}


def crates_below(test):
    """What a crate below doesn't show makes no record stale, and all else does."""
    test.write("crates.txt", f"{CRATE}:\nabove: {CRATE}\n")
    os.makedirs(f"{test.root}/crates/above")
    source = f"crates/{CRATE}/src/state.rt"

    def digest(text):
        test.write(source, text)
        return Tree(test.root).digest("above")

    first = digest(BELOW)
    for changes, stays in ((HIDDEN, True), (SHOWN, False)):
        for what, (old, new) in changes.items():
            is_same = digest(BELOW.replace(old, new)) == first
            said = "doesn't make" if stays else "makes"
            test.expect(f"{what} of a crate below {said} a record stale", is_same == stays)


def run(root):
    """Runs the tests, and returns the exit status."""
    with tempfile.TemporaryDirectory(prefix=f"{toolchain.ROOMS}{os.getpid()}-") as room:
        test = Test(root, room)
        bad_input(test)
        harmless_edit(test)
        records(test)
        carried(test)
        crates_below(test)
    print(f"wrong-bodies --self-test: {test.failed} failed")
    return 1 if test.failed else 0
