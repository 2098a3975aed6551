"""Runs whose choices are drawn, as run 0 of `asm-explore random` (bench/explore/random_runs.py), and calls of the commands that draw them."""
import sys

from program import HEAD, ROOT
from rows import Row, refused

sys.path.append(str(ROOT / "bench" / "explore"))
from one_run import shown_path  # noqa: E402
from random_runs import Machine, Source  # noqa: E402

GREATEST_SEED = (1 << 64) - 1
SEEDS = (0, 1, 7, 12, 1 << 32, GREATEST_SEED)

UNDRAWN = "asm-explore: --draw {}: the script of the run can't be written\n"
TOSSES = HEAD + "enum Side = { heads, tails }\nfunction controlled x\nrule M = choose s in Side do x := s endchoose\n"


def drawn_script(text, seed, steps, turns=1000, always=()):
    """A line for each choice of the run that is drawn, but for those of first candidates. It ends with a step that fails, or where a condition
    isn't true."""
    machine = Machine(text, turns, always)
    if machine.broken[0]:
        return ""
    draft = machine.drawn(Source(seed, 0), steps).draft
    return "".join(f"{step} {shown_path(path)} {number}\n" for step, numbers in enumerate(draft, 1) for path, number in numbers.items())


def of_draws(name):
    """What is refused where choices are to be drawn."""
    both = "error: the choices can't both be read from a script and be drawn\n"
    yield refused(4, [name, "-", "--draw", "7", "--script", "none"], both)
    yield refused(4, [name, "none", "--script=none", "--draw=0"], both)
    for value in ("-1", "three", "", str(GREATEST_SEED + 1)):
        yield refused(4, [name, "-", f"--draw={value}"], f"error: invalid value '{value}' for '--draw <N>': ")
    yield refused(4, [name, "-", "--draw"], "error: a value is required for '--draw <N>' but none was supplied\n")
    yield refused(4, [name, "-", "--draw", "7", "--draw", "7"], "error: the argument '--draw <N>' cannot be used multiple times\n")
    # What is wrong with a text or a condition is said as without drawing.
    yield refused(2, [name, "-", "--draw", "7"], "standard input:1:1: ", text="$")
    yield refused(2, [name, "text", "--draw", "7"], "text:4:15: ", files={"text": HEAD + "function controlled x\nrule M = x := y\n"})
    yield refused(2, [name, "-", "--draw", "7", "--always", "true", "--always", "y"], "condition 2:1:1: check 9: ")
    yield refused(3, [name, "none", "--draw", "7"], "asm-explore: none: the file can't be read\n")
    # Half of 300,000 lines are longer than a script may be.
    yield refused(3, [name, "-", "--steps", "300000", "--draw", "7"], UNDRAWN.format(7), text=TOSSES)
    yield Row([name, "--help"], 0, is_front=True, shows=("--draw <N>",))
