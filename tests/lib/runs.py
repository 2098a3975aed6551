"""The calls of `asm-explore choices`, `clash` and `show` that the repository has answers of, beside the texts: the whole standard output of each.
They are worked out by bench/explore/worked_runs."""
import argparse
from typing import NamedTuple

from program import ROOT

EXAMPLES = ROOT / "examples"


class Run(NamedTuple):
    """A command, a text, and the words behind it in a call of asm-explore in the folder of the examples, with the status of the answer."""

    command: str
    name: str
    text: str
    words: list
    status: int

    def answer(self):
        """The file of the answer."""
        return EXAMPLES / f"{self.name}.{'table' if self.command == 'show' else self.command}"

    def call(self):
        """The words behind the program."""
        return [self.command, self.text, *self.words]


def asked_by(words):
    """What the words ask for: a number of steps, one of turns, and the name of a script or none; and for `show` conditions, names and a width."""
    known = argparse.ArgumentParser()
    known.add_argument("--steps", type=int, default=1000)
    known.add_argument("--turns", type=int, default=1000)
    known.add_argument("--script")
    known.add_argument("--always", action="append", default=[])
    known.add_argument("--only", action="append", default=[])
    known.add_argument("--width", type=int, default=100)
    return known.parse_args(words)


def of(command, name, *words, text=None, script=True, status=0):
    """A call for the text of this name, with the script of this name, if there is one, or with another script or none."""
    given = [*words, "--script", f"{name if script is True else script}.script"] if script else list(words)
    return Run(command, name, f"{text or name}.asm", given, status)


def choices(*given, **more):
    return of("choices", *given, **more)


def clash(*given, **more):
    return of("clash", *given, **more)


def show(*given, **more):
    return of("show", *given, **more)


RUNS = [
    choices("mutex_wrong", status=1),
    choices("alternating_wrong", status=1),
    choices("termination_wrong", status=1),
    choices("bakery_wrong", status=1),
    choices("raft_wrong", status=1),
    choices("window_wrong", status=1),
    choices("msi_wrong", status=1),
    choices("stack_aba_wrong", status=1),
    choices("commit", "--steps", "11"),
    choices("draw", "--steps", "3"),
    # Elections choose nothing.
    choices("election", "--steps", "8", script=False),
    choices("philosophers", "--steps", "10"),
    choices("gate", "--steps", "16"),
    # Of 121 degrees 64 are shown; the script has lines for every step.
    choices("boiler", "--steps", "6"),
    choices("guide/coin", "--steps", "2"),
    choices("guide/coin_none", "--steps", "0", text="guide/coin", script=False),
    # The lines of a script of which the step comes too late.
    choices("guide/coin_late", "--steps", "0", text="guide/coin", script="guide/coin", status=6),
    choices("guide/drinks", "--steps", "2"),
    choices("guide/ways", "--steps", "1"),
    # In the third step there is no candidate.
    choices("guide/choose", "--steps", "3", script=False),
    choices("guide/bell_always", "--steps", "4", text="guide/bell"),
    choices("guide/toss_short", "--steps", "3", text="guide/toss", status=6),
    choices("guide/outside", script=False, status=1),
    choices("guide/dice", "--turns", "3", status=1),
    choices("guide/quorum", status=1),
    # A fault comes before lines that no choose met.
    choices("guide/quorum_astray", text="guide/quorum", status=1),
    clash("mutex_wrong", status=1),
    clash("alternating_wrong", status=1),
    clash("termination_wrong", status=1),
    clash("raft_wrong", status=1),
    clash("window_wrong", status=1),
    clash("msi_wrong", status=1),
    clash("stack_aba_wrong", status=1),
    clash("commit", "--steps", "11"),
    clash("guide/clash", script=False, status=1),
    clash("guide/outside", script=False, status=1),
    clash("guide/stop", script=False, status=1),
    clash("guide/forever", "--turns", "5", script=False, status=1),
    clash("guide/seq_clash", script=False, status=1),
    clash("guide/quorum", status=1),
    clash("guide/tally", script=False, status=1),
    clash("guide/shift", script=False, status=1),
    clash("guide/coin", "--steps", "0"),
]


TABLES = [
    show("mutex_wrong", status=1),
    show("mutex_wrong_safe", "--always", "isSafe", text="mutex_wrong", script="mutex_wrong", status=1),
    show("mutex", "--steps", "7"),
    show("alternating_wrong", status=1),
    show("termination_wrong", status=1),
    show("bakery_wrong", status=1),
    show("raft_wrong", "--always", "isSafe", status=1),
    show("window_wrong", status=1),
    show("msi_wrong", "--always", "isSafe", status=1),
    show("stack_aba_wrong", "--always", "isSafe", status=1),
    show("commit", "--steps", "11"),
    show("philosophers", "--steps", "10"),
    show("philosophers_meals", "--only", "meals", "--only", "holder(2)", "--steps", "10", text="philosophers", script="philosophers"),
    show("election", "--steps", "8", script=False),
    show("gate", "--steps", "16"),
    show("cash", "--steps", "9"),
    show("boiler", "--steps", "6"),
    show("draw", "--steps", "3"),
    show("counter_always", "--always", "x < 3", text="counter", script=False, status=1),
    show("turing", "--steps", "15", script=False),
    show("queens", "--steps", "20", script=False),
    show("paths", "--steps", "6", script=False),
    show("guide/sum", "--steps", "1", script=False),
    show("guide/coin", "--steps", "2"),
    show("guide/coin_late", "--steps", "0", text="guide/coin", script="guide/coin", status=6),
    show("guide/drinks", "--steps", "2"),
    show("guide/ways", "--steps", "1"),
    show("guide/queue", "--steps", "4"),
    show("guide/toss_short", "--steps", "3", text="guide/toss", status=6),
    show("guide/outside", script=False, status=1),
    show("guide/dice", "--turns", "3", status=1),
    show("guide/quorum", status=1),
    show("guide/quorum_astray", text="guide/quorum", status=1),
    show("guide/tally", script=False, status=1),
]


def without_unmet(answer):
    """An answer of `choices` without the lines of the script that no choose met."""
    return b"".join(line for line in answer.splitlines(True) if not line.startswith(b"# no choose met "))
