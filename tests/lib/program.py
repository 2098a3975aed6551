"""The programs that the tests run, and what they answer to a text."""
import contextlib
import os
import pathlib
import subprocess
import sys
import tempfile
from concurrent.futures import ThreadPoolExecutor
from typing import NamedTuple

ROOT = pathlib.Path(__file__).resolve().parent.parent.parent

# A run that takes so many seconds hangs: none that is looked at takes more than a few.
LONGEST = 60

# The most bytes that a text can have, and a script.
LONGEST_TEXT = 1_048_576

# The first two lines of a text.
HEAD = "CoreASM T\ninit M\n"


class Answer(NamedTuple):
    status: int
    out: bytes
    err: bytes

    def shown(self):
        return f"status {self.status}, trace {shortened(self.out)}, line {shortened(self.err)}"


HANGS = Answer(-1, b"", b"the run hangs")


def shortened(text):
    return repr(text) if len(text) <= 200 else f"{text[:100]!r} .. {text[-100:]!r} ({len(text)} bytes)"


def program(word=None, name="asm"):
    """The file of the program that this word of the command line names, or else of the one of this name that is of these sources."""
    if word:
        found = os.path.abspath(word)
        if not os.access(found, os.X_OK):
            sys.exit(f"{found}: no program is there")
        return found
    asked = subprocess.run([ROOT / "release" / "which", name], stdout=subprocess.PIPE, text=True)
    if asked.returncode != 0:
        sys.exit("./build makes the program")
    return asked.stdout.split("\n")[0]


def built(name):
    """The two files of the program of this name that .ci/prove has built of these sources, as LLVM makes it and as Rattle's own compiler does."""
    asked = subprocess.run([ROOT / "release" / "which", "--built", name], stdout=subprocess.PIPE, text=True)
    if asked.returncode != 0:
        sys.exit(1)
    by_llvm = asked.stdout.split("\n")[0]
    return [by_llvm, f"{by_llvm}.by-rattle"]


def answer(words, text=b"", script=None, **given):
    """What the words answer, with the text on standard input, and the script, if there is one, in a file."""
    if script is None:
        return run(words, text, given)
    with tempfile.NamedTemporaryFile() as file:
        file.write(script)
        file.flush()
        return run([*words, "--script", file.name], text, given)


def answer_among(files, words, text, input=None, output=None, error=None):
    """What the words answer in a folder with these files, and nothing of what goes to a file of the system. The text is standard input, if
    that isn't another file of the system."""
    with tempfile.TemporaryDirectory() as folder, contextlib.ExitStack() as streams:

        def stream(path, flags):
            number = os.open(path, flags)
            streams.callback(os.close, number)
            return number

        given = pathlib.Path(folder, "standard input")
        given.write_text(text)
        for name, content in files.items():
            pathlib.Path(folder, name).write_text(content)
        streams_given = {
            "stdin": stream(input or given, os.O_RDONLY),
            "stdout": stream(output, os.O_WRONLY) if output else subprocess.PIPE,
            "stderr": stream(error, os.O_WRONLY) if error else subprocess.PIPE,
        }
        try:
            ran = subprocess.run(words, cwd=folder, timeout=LONGEST, **streams_given)
        except subprocess.TimeoutExpired:
            return HANGS
    return Answer(ran.returncode, ran.stdout or b"", ran.stderr or b"")


def run(words, text, given):
    try:
        ran = subprocess.run(words, input=text, capture_output=True, timeout=LONGEST, close_fds=False, **given)
    except subprocess.TimeoutExpired:
        return HANGS
    return Answer(ran.returncode, ran.stdout, ran.stderr)


def side_by_side(function, items):
    """What the function makes of each item, as many at a time as there are processors."""
    with ThreadPoolExecutor(os.cpu_count()) as threads:
        yield from threads.map(function, items)
