"""The runs that the repository has traces of: those of the examples and of the table that the program asm_answers reads."""
import re
from typing import NamedTuple, Optional

from program import HEAD, ROOT

EXAMPLES = ROOT / "examples"
TABLE = ROOT / "crates" / "asm_answers" / "stdin"

STATUSES = {"limit": 0, "clash": 1, "outside": 1, "exhausted": 1}


class Run(NamedTuple):
    """A run by its text, script and words. Its trace is None where it isn't known. `is_shortened`: the table writes its text in a shorter way."""

    name: str
    text: bytes
    script: bytes
    words: list
    trace: Optional[bytes]
    is_shortened: bool = False

    def status(self):
        """The status that goes with the trace."""
        return STATUSES[re.search(rb"^end (\w+)", self.trace, re.MULTILINE).group(1).decode()]


def of_examples():
    """The runs of the file examples/runs, whose lines are a name, a number of steps and, where a script goes with it, `script`."""
    for line in (EXAMPLES / "runs").read_text().splitlines():
        name, steps, *script = line.split()
        script = (EXAMPLES / f"{name}.script").read_bytes() if script else b""
        text, trace = ((EXAMPLES / f"{name}.{kind}").read_bytes() for kind in ("asm", "trace"))
        yield Run(name, text, script, ["--steps", steps], trace)


def expanded(text):
    """A text of the table without its marks: what is repeated stands as often as it comes, and bytes in base 16 are bytes."""

    def repeated(found):
        return b"".join(found.group(2).replace(b"@#", b"%d" % k) for k in range(int(found.group(1))))

    innermost = re.compile(rb"@(\d+)\{((?:(?!@\d+\{|@\}).)*)@\}", re.DOTALL)
    while innermost.search(text):
        text = innermost.sub(repeated, text)
    text = re.sub(rb"@x([0-9A-F]{2})", lambda found: bytes([int(found.group(1), 16)]), text)
    return text.replace(b"@^", b"")


def of_table():
    """The runs of the table. Where one has no trace, the same run stands in it once more with one, by other words."""
    cases = TABLE.read_bytes().removesuffix(b"\n").split(b"\n=== ")[1:]
    for case in cases:
        header, _, text = case.partition(b"\n")
        header = header.decode()
        if not header.startswith("run"):
            continue
        words, _, name = header[len("run") :].partition(": ")
        words = [word for word in words.strip().split(", ") if word]
        is_traced = b"\n--- trace\n" in text
        text, _, answer = text.partition(b"\n--- trace\n" if is_traced else b"\n--- answer\n")
        text, _, script = text.partition(b"\n--- script\n")
        whole = expanded(text) if "whole" in words else HEAD.encode() + expanded(text) + b"\n"
        limits = {"steps": "1", "turns": "1000", **dict(word.split(" ") for word in words if word != "whole")}
        given = [piece for limit, value in limits.items() for piece in (f"--{limit}", value)]
        trace = expanded(answer) + b"\n" if is_traced else None
        yield Run(name, whole, expanded(script), given, trace, is_shortened=b"@" in text)
