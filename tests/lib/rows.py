"""Calls of asm-explore with what is answered, for the tests that go up to each status."""
import os
from typing import NamedTuple, Optional

from program import HEAD, answer_among, program, shortened

COIN = HEAD + "enum Side = { heads, tails }\nfunction controlled shown\nrule M = choose s in Side do shown := s endchoose\n"
UNWRITTEN = "asm-explore: the answer can't be written\n"


class Row(NamedTuple):
    """Words behind the program, and the answer: what stands on standard output, or how that begins, with other texts in it; and texts that
    stand on standard error, on which there is nothing if there are none."""

    words: list
    status: int
    out: str = ""
    says: tuple = ()
    is_front: bool = False
    shows: tuple = ()
    text: str = COIN
    files: dict = {}
    input: Optional[str] = None
    output: Optional[str] = None
    error: Optional[str] = None
    shell: Optional[str] = None  # how a shell calls the program, as "$@"

    def fault(self, explore):
        """What is wrong with the answer, or None."""
        words = [explore, *self.words] if self.shell is None else ["sh", "-c", self.shell, "sh", explore, *self.words]
        found = answer_among(self.files, words, self.text, self.input, self.output, self.error)
        is_out = found.out.startswith(self.out.encode()) if self.is_front else found.out == self.out.encode()
        missing = [said for said in self.says if said.encode() not in found.err]
        missing += [shown for shown in self.shows if shown.encode() not in found.out]
        if found.status == self.status and is_out and not missing and bool(found.err) == bool(self.says):
            return None
        return f"{self.words}: {found.shown()} in place of status {self.status}, {shortened(self.out)} and {self.says + self.shows}"


def refused(status, words, *says, **given):
    return Row(words, status, says=says, **given)


def programs_of(words):
    """The programs that the words name, or those of these sources."""
    if words:
        return [program(word) for word in words]
    found = program(name="asm-explore")
    return [found, *filter(os.path.exists, [f"{found}.by-rattle"])]
