"""Finds the toolchain beside the command `rt`, and runs its checks on copies of a crate."""
import contextlib
import os
import re
import shutil
import subprocess
import sys
import tempfile

from .edits import PARTS, read
from .failure import Failure
from .verdicts import Said, folders_of, folders_of_cycle

# How the names of the copies begin.
ROOMS = "wrong-bodies-"
# A goal, where a function's goals are written out.
GOAL = re.compile(r"^abbrev pub (\S+) : Type", re.MULTILINE)
SILENT = {"stdin": subprocess.DEVNULL, "stdout": subprocess.PIPE, "stderr": subprocess.STDOUT}


def version():
    """Returns the toolchain's identity, or None where there is no `rt`."""
    if not shutil.which("rt"):
        return None
    ran = subprocess.run(["rt", "version"], capture_output=True, text=True)
    if ran.returncode:
        raise Failure("rt version ended with an error, so the toolchain has no name")
    return ran.stdout.strip()


def library():
    """Returns the library of `rt`, which knows with which words a crate is checked."""
    command = shutil.which("rt")
    if not command:
        raise Failure("there is no rt on the PATH, and only the toolchain can try a wrong body")
    sys.path.insert(0, os.path.dirname(os.path.realpath(command)))
    try:
        import rtlib
    except ImportError:
        raise Failure("beside rt there is no rtlib.py, which says how to check a crate") from None
    finally:
        sys.path.pop(0)
    # What it starts ends with this process, however that ends.
    rtlib.guarded()
    return rtlib


class Toolchain:
    """The toolchain's checks of the crates of a repository."""

    def __init__(self, root, jobs):
        self.root, self.jobs = root, jobs
        self.rtlib = library()
        self.crates = {it.name: it for it in self.rtlib.crates_below(f"{root}/crates")}
        self.running, self.is_stopped = set(), False

    def build_below(self, name, begins):
        """Sees to it that the libraries below a crate are built of these sources.

        Where it begins and nothing is kept here, it begins with what checks kept in other copies.
        """
        crate = self.crates[name]
        below = crate.below()
        if below and all(is_left_by_gate(it) for it in below):
            return
        if begins and not os.path.isdir(f"{crate.folder}/out/incremental"):
            self.call(crate, "check", "--only", "")
        for it in below:
            if not it.is_built():
                self.call(it, "lib")

    def call(self, crate, *words):
        """Runs a command of `rt` in a crate's folder, and shows what it says where it fails."""
        ran = subprocess.run(["rt", *words], cwd=crate.folder, **SILENT)
        if ran.returncode:
            print(ran.stdout.decode(errors="replace")[-3000:], file=sys.stderr)
            why = f"rt {words[0]} failed in crates/{crate.name}"
            raise Failure(f"{why}, so no wrong body above it can be tried")

    @contextlib.contextmanager
    def seed(self, name, only):
        """Gives a folder with what a check of the crate as it stands keeps.

        It begins with what earlier checks kept, and the crate has to be proved.
        """
        with self.room(name, {}, None) as (room, kept):
            said = self.run(name, room, kept, only_words(only))
            if said.status:
                print(said.output[-3000:], file=sys.stderr)
                raise Failure(f"{name} isn't proved as it stands: its wrong bodies can't be tried")
            yield kept

    def try_texts(self, name, texts, only, seed):
        """Returns what a check of a copy of a crate says, with these texts in place of its own."""
        with self.room(name, texts, seed) as (room, kept):
            return self.run(name, room, kept, only_words(only))

    def goals_of(self, name, functions, seed):
        """Returns the goals that functions have as they stand, each as `FUNCTION GOAL`."""
        with self.room(name, {}, seed) as (room, kept):
            started = [word for it in functions for word in ("--start", it.path())]
            self.run(name, room, kept, [*started, "--generated", f"{room}/goals"])
            found, top = set(), f"{room}/goals/Rattle-{name}-proofs"
            for function in functions:
                own = function.path()
                for folder in (*folders_of(own), *folders_of_cycle(own, function.cycle)):
                    path = f"{top}/{folder.removeprefix('proofs/')}Goals.antt"
                    text = read(path, path) if os.path.isfile(path) else ""
                    found |= {f"{function.path()} {it}" for it in GOAL.findall(text)}
            return found

    @contextlib.contextmanager
    def room(self, name, texts, seed):
        """Gives a copy of a crate with these texts in place of its own, and of what checks kept."""
        folder = self.crates[name].folder
        with tempfile.TemporaryDirectory(prefix=f"{ROOMS}{os.getpid()}-") as room:
            for part in PARTS:
                if os.path.isdir(f"{folder}/{part}"):
                    shutil.copytree(f"{folder}/{part}", f"{room}/{part}")
            for file, text in texts.items():
                with open(f"{room}/{file}", "w", encoding="utf-8") as out:
                    out.write(text)
            link_kept(seed or f"{folder}/out/incremental", f"{room}/kept")
            yield room, f"{room}/kept"

    def run(self, name, room, kept, more):
        """Checks a crate in a room, once more where the check was killed."""
        words = self.crates[name].words(["--jobs", str(self.jobs)], keeps=False)
        words = [self.rtlib.RATTLE, "check", *words, "--incremental", kept, *more]
        for _ in range(2):
            if self.is_stopped:
                raise Failure("stopped")
            ran = subprocess.Popen([*self.rtlib.guarded(), *words], cwd=room, **SILENT)
            self.running.add(ran)
            output = ran.communicate()[0].decode(errors="replace")
            self.running.discard(ran)
            if ran.returncode >= 0:
                break
        return Said(name, ran.returncode, output)

    def stop(self):
        """Ends the checks that run."""
        self.is_stopped = True
        for it in [*self.running]:
            it.kill()


def only_words(names):
    """Returns the words that limit a check to these functions and modules."""
    return [word for it in names for word in ("--only", it)]


def is_left_by_gate(crate):
    """Returns whether a library is one that `rt ci` put here, which leaves no stamp.

    It did so after the last change of what the library is made from.
    """
    if not os.path.isdir(crate.rlib) or os.path.exists(f"{os.path.dirname(crate.rlib)}/stamp"):
        return False
    made = os.path.getmtime(crate.rlib)
    walked = (found for part in PARTS for found in os.walk(f"{crate.folder}/{part}"))
    return all(os.path.getmtime(f"{at}/{it}") < made for at, _, names in walked for it in names)


def link_kept(folder, to):
    """Copies what checks kept.

    What is proved is linked, as a check replaces such a file and never writes into it.
    """

    def copy(one, other):
        if one.endswith(".oantt"):
            with contextlib.suppress(OSError):
                return os.link(one, other)
        return shutil.copy2(one, other)

    for _ in range(3 if os.path.isdir(folder) else 0):
        try:
            shutil.copytree(folder, to, copy_function=copy)
            return
        except (OSError, shutil.Error):
            # Another check may be writing there.
            shutil.rmtree(to, ignore_errors=True)
    os.makedirs(to)


def sweep():
    """Removes the copies that killed runs left."""
    top = tempfile.gettempdir()
    for name in os.listdir(top):
        owner = name.removeprefix(ROOMS).partition("-")[0]
        is_ours = name.startswith(ROOMS) and owner.isdigit()
        if is_ours and not os.path.exists(f"/proc/{owner}"):
            shutil.rmtree(f"{top}/{name}", ignore_errors=True)
