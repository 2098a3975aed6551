"""Runs the program and the baseline, a plain interpreter in Rust, and measures their seconds and their memory."""
import hashlib
import os
import subprocess
import sys

HERE = os.path.dirname(os.path.abspath(__file__))
ROOT = os.path.dirname(HERE)
OUT = os.path.join(HERE, "out")
BASELINE = os.path.join(OUT, "baseline")
MEASURE = os.path.join(OUT, "measure")

sys.path.insert(0, os.path.join(ROOT, "tests", "lib"))
from program import program  # noqa: E402


def build(word=None):
    """Makes the baseline and what measures, and answers the file of the program that this word names, or of the one of these sources."""
    build_yardstick()
    return program(word)


def build_yardstick():
    """Makes the baseline and what measures, where they aren't there yet."""
    os.makedirs(OUT, exist_ok=True)
    fast = ["rustc", "--edition", "2021", "-O", "-C", "target-cpu=native", "-o"]
    sources = [os.path.join(HERE, "baseline", name) for name in os.listdir(os.path.join(HERE, "baseline"))]
    newest = max(os.path.getmtime(source) for source in sources)
    if not os.path.exists(BASELINE) or os.path.getmtime(BASELINE) < newest:
        subprocess.run(fast + [BASELINE, os.path.join(HERE, "baseline", "main.rs")], check=True)
    if not os.path.exists(MEASURE):
        subprocess.run(fast + [MEASURE, os.path.join(HERE, "measure.rs")], check=True)


def trace(program, text, words):
    with open(text, "rb") as given:
        done = subprocess.run([program] + words, stdin=given, stdout=subprocess.PIPE, stderr=subprocess.DEVNULL)
    return done.returncode, hashlib.sha256(done.stdout).hexdigest()


def measured(program, text, words, repeat):
    """Seconds of one call, and megabytes at most."""
    seconds, memory = 0.0, 0.0
    for _ in range(repeat):
        shown = subprocess.run([MEASURE, text, program] + words, capture_output=True, text=True, check=True)
        time, kilobytes, _ = shown.stdout.split()
        seconds += float(time)
        memory = max(memory, float(kilobytes) / 1024)
    return seconds / repeat, memory
