"""The command wrong-bodies: its words, and the one line that it ends in where something lacks."""
import argparse
import contextlib
import os
import re
import signal
import sys

from . import toolchain
from .carrying import carry_over
from .failure import Failure
from .trying import tell_groups, tell_stale, try_all, try_sample

ABOUT = """\
Tries the wrong bodies wrong/CRATE/NAME.edit, several of a crate in one check: each has to be
refused by a goal of the function that it changes. Which goal that is, it writes to
wrong/CRATE/tried. Without words it tries what isn't as it was tried last."""
WORDS = "a crate, or CRATE/NAME for one wrong body, which is tried in any case"
CARRY = """take over what the records of a commit say of functions that are as they were there,
once tests/compare_contracts has found no contract and no definition that differs"""
MODES = {
    "--stale": "only say which crates' wrong bodies aren't as they were tried",
    "--sample": "try one group anew, which the records choose, and compare",
    "--groups": "only print which wrong bodies share a check",
    "--self-test": "try the script itself, on wrong bodies of asm_state",
}


def default_lanes():
    """Returns how many checks run side by side: one a processor that has 4 GB of free memory."""
    with open("/proc/meminfo", encoding="ascii") as file:
        free = [int(re.search(r"MemAvailable:\s+(\d+)", file.read())[1]) * 1024]
    for limit in ("memory.max", "memory/memory.limit_in_bytes"):
        with contextlib.suppress(OSError, ValueError):
            with open(f"/sys/fs/cgroup/{limit}", encoding="ascii") as file:
                free.append(int(file.read()))
    return max(1, min(len(os.sched_getaffinity(0)), min(free) // 4_000_000_000))


def parsed(words):
    """Returns the command's words, read."""
    parser = argparse.ArgumentParser(prog="wrong-bodies", description=ABOUT, allow_abbrev=False)
    parser.add_argument("words", nargs="*", metavar="CRATE", help=WORDS)
    parser.add_argument("--anew", action="store_true", help="try all, also what was tried")
    parser.add_argument("--jobs", type=int, metavar="N", help="how many checks run side by side")
    modes = parser.add_mutually_exclusive_group()
    modes.add_argument("--carry", metavar="COMMIT", help=CARRY)
    for mode, text in MODES.items():
        modes.add_argument(mode, action="store_true", help=text)
    return parser.parse_args(words)


def run(root, words):
    """Does what the words say, and returns the exit status."""
    given = parsed(words)
    lanes = given.jobs or default_lanes()
    is_mode = given.stale or given.sample or given.groups or given.self_test or given.carry
    if given.words and is_mode:
        raise Failure("crates are named only where wrong bodies are tried")
    if lanes < 1:
        raise Failure("--jobs takes a number from 1 on")
    toolchain.sweep()
    if given.stale:
        return tell_stale(root)
    if given.sample:
        return try_sample(root, lanes)
    if given.groups:
        return tell_groups(root)
    if given.carry:
        return carry_over(root, given.carry)
    if given.self_test:
        from . import self_test

        return self_test.run(root)
    return try_all(root, given.words, given.anew, lanes)


def main(root, words):
    """Runs the command, and returns its exit status: 2 where something is missing."""

    def end(*_):
        raise KeyboardInterrupt

    signal.signal(signal.SIGTERM, end)
    try:
        return run(root, words)
    except Failure as failure:
        print(f"wrong-bodies: {failure}", file=sys.stderr)
        return 2
    except BrokenPipeError:
        os.dup2(os.open(os.devnull, os.O_WRONLY), sys.stdout.fileno())
        return 141
    except OSError as error:
        named = f"{error.filename}: " if error.filename else ""
        print(f"wrong-bodies: {named}{error.strerror or error}", file=sys.stderr)
        return 2
    except KeyboardInterrupt:
        print("wrong-bodies: stopped", file=sys.stderr)
        return 130
