"""Runs programs and looks at how they ask for memory: how often, for how much, and what they do where one request is refused.

A library that is loaded before the C library counts and refuses. It is made from memory_requests.c by the toolchain's own compiler.
"""
import os
import pathlib
import subprocess
import sys
import tempfile
from typing import NamedTuple

HERE = pathlib.Path(__file__).resolve().parent
OUT = HERE.parent / "out"
LIBRARY = OUT / "memory_requests.so"

# A run that takes so many seconds hangs: with ample memory each takes some milliseconds.
LONGEST = 60

# So many runs that end without a refusal, one after the other, end a series: threads share their tasks otherwise each time.
ENOUGH = 3


class Requests(NamedTuple):
    """How many requests the first thread had and those that it started, how many were refused, and their bytes in all and at most."""

    of_first: int
    of_started: int
    refused: int
    everything: int
    greatest: int


class Ran(NamedTuple):
    """What a program answered, and what it asked for."""

    status: int
    out: str
    err: str
    requests: Requests


def build():
    """Makes the library."""
    OUT.mkdir(exist_ok=True)
    page = subprocess.run(["rt", "doc"], capture_output=True, text=True, check=True).stdout.strip()
    clang = pathlib.Path(page).parent / "toolchain" / "bin" / "clang"
    words = ["-O1", "-ffreestanding", "-nostdlib", "-shared", "-fPIC", "-o", LIBRARY, HERE / "memory_requests.c"]
    subprocess.run([clang, *words], check=True)


def run(words, text="", **variables):
    """Runs the words, with the text on standard input. The variables say which request is refused, if one is."""
    with tempfile.NamedTemporaryFile("r") as told:
        environment = dict(os.environ, LD_PRELOAD=str(LIBRARY), REQUESTS=told.name, **variables)
        try:
            ran = subprocess.run(words, input=text, capture_output=True, text=True, env=environment, timeout=LONGEST)
        except subprocess.TimeoutExpired:
            sys.exit(f"{words}: the run hangs, with {variables}")
        counts = told.read().split()
        if not counts:
            sys.exit(f"{words}: the run is stopped by signal {-ran.returncode}, with {variables}: {ran.stderr}")
        return Ran(ran.returncode, ran.stdout, ran.stderr, Requests(*map(int, counts)))


class Tally(NamedTuple):
    """How many requests were refused, how many of them of started threads, and how many were answered for want of memory."""

    requests: int
    of_started: int
    answered: int


def refuse_all(name, words, text, is_whole, is_answer):
    """Refuses the first request of the first thread, then in another run the second, and so on until a run ends without a refusal; then
    so the requests of the threads that it starts. A refused run is as with ample memory (is_whole), or says that memory ran out
    (is_answer); one that isn't refused is whole."""
    counts, answered = [], 0
    for variable in ("REFUSE", "REFUSE_STARTED"):
        number, without = 1, 0
        while without < ENOUGH:
            ran = run(words, text, **{variable: str(number)})
            if not is_whole(ran):
                if not ran.requests.refused or not is_answer(ran):
                    sys.exit(f"{name}: {variable}={number}: {ran}")
                answered += 1
            without = 0 if ran.requests.refused else without + 1
            number += ran.requests.refused
        counts.append(number - 1)
    return Tally(sum(counts), counts[1], answered)
