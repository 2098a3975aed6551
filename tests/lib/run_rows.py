"""Calls that each command of asm-explore answers alike that makes one run: words, texts, scripts, files and streams, up to each status."""
from typing import Callable, NamedTuple

from program import HEAD, LONGEST_TEXT
from rows import COIN, UNWRITTEN, Row, refused

STILL = HEAD + "rule M = skip\n"
CLASH = HEAD + "function controlled x\nrule M = par x := 1 x := 2 endpar\n"
# A turn in which x stays as it is, and all others too.
FOREVER = HEAD + "function controlled x initially 0\nrule M = iterate if x < 1000 then x := x + 1 endif enditerate\n"
ONE = ["-", "--steps", "1"]


class Command(NamedTuple):
    """A command, with the options that it alone has, and what it answers: of so many steps of a text without locations, of one step of the coin,
    and of a step of a text that is exhausted after so many turns."""

    name: str
    options: tuple
    still: Callable
    coin: str
    exhausted: Callable


# The options with numbers, with the least and the greatest of each.
LIMITS = [("steps", 0, 1_000_000), ("turns", 1, 1_000_000)]


def of_limits(command, limits):
    """Numbers on both sides of the limits of some options."""
    for option, least, most in limits:
        for value in (least - 1, most + 1, "three", "", 1 << 32):
            yield refused(4, [command, "-", f"--{option}={value}"], f"error: invalid value '{value}' for '--{option} <N>': ")
        yield refused(4, [command, "-", f"--{option}"], f"error: a value is required for '--{option} <N>' but none was supplied\n")
        twice = f"error: the argument '--{option} <N>' cannot be used multiple times\n"
        yield refused(4, [command, "-", f"--{option}", str(most), f"--{option}", str(most)], twice)


def of_numbers(command):
    name = command.name
    yield from of_limits(name, LIMITS)
    for steps in (0, 1, 1_000_000):
        yield Row([name, "--steps", str(steps), "-"], 0, command.still(steps), text=STILL)
    yield Row([name, "-"], 0, command.still(1000), text=STILL)
    for turns in (1, 1000):
        yield Row([name, *ONE, "--turns", str(turns)], 1, command.exhausted(turns), text=FOREVER)
    for turns in (1001, 1_000_000):
        yield Row([name, *ONE, "--turns", str(turns)], 0, "# limit after step 1\n", is_front=True, text=FOREVER)
    yield Row([name, *ONE], 1, command.exhausted(1000), text=FOREVER)


# Comments of a script that say how many steps and turns its run has, and others that don't.
SAID = [
    ("# asm --steps 7 --script THIS\n", 7),
    ("# asm --steps 0 --script THIS text\n", 0),
    ("# asm --steps 0000007 --script THIS text\r\n", 7),
    ("# asm --steps 9 --script THIS\n# asm --steps 3 --script THIS 'a b'", 3),
    ("# asm --steps 3 of a run\n\n# asm --steps\n", 3),
    ("# asm --steps 3 --script THIS\n# asm --steps 1000001 --script THIS\n# asm --steps 00000009 --script THIS\n", 3),
    ("# asm --steps 9 --script THIS\n# asm --steps 4  --script THIS\n", 4),
]
UNSAID = ["", "# asm --steps 7", "#asm --steps 7 --script THIS"]
UNSAID += [f"# asm --steps {word} --script THIS" for word in ("", " 7", "+7", "-7", "7x", "x")]


def of_said_numbers(command):
    """Without `--steps` the numbers are those that the script says."""
    name = command.name
    given = [name, "-", "--script", "script"]
    for script, steps in SAID:
        yield Row(given, 0, command.still(steps), text=STILL, files={"script": script})
        yield Row([*given, "--steps", "5"], 0, command.still(5), text=STILL, files={"script": script})
        yield Row([name, "text", "--script", "-"], 0, is_front=True, out=f"# limit after step {steps}\n", text=script, files={"text": STILL})
    for script in UNSAID:
        yield Row(given, 0, command.still(1000), text=STILL, files={"script": script})
    turns = {"script": "# asm --steps 1 --script THIS --turns 5 text\n"}
    yield Row(given, 1, command.exhausted(5), text=FOREVER, files=turns)
    yield Row([*given, "--turns", "7"], 1, command.exhausted(7), text=FOREVER, files=turns)
    yield Row([*given, "--steps", "1"], 1, command.exhausted(1000), text=FOREVER, files=turns)
    for said in ("--turns 0", "--turns 1000001", "--turns", "--turns x", "-- --turns 5"):
        yield Row(given, 1, command.exhausted(1000), text=FOREVER, files={"script": f"# asm --steps 1 --script THIS {said}\n"})


def of_seeds(command):
    """Choices are drawn by any number of 64 bits, and not beside a script."""
    name = command.name
    for value in ("-1", str(1 << 64), "three", ""):
        yield refused(4, [name, "-", f"--draw={value}"], f"error: invalid value '{value}' for '--draw <N>': ")
    yield refused(4, [name, "-", "--draw"], "error: a value is required for '--draw <N>' but none was supplied\n")
    yield refused(4, [name, "-", "--draw", "2", "--draw", "2"], "error: the argument '--draw <N>' cannot be used multiple times\n")
    for given in (["-", "--draw", "7", "--script", "none"], ["--script=-", "--draw=0", "none"]):
        yield refused(4, [name, *given], "error: the choices can't both be read from a script and be drawn\n", f"Usage: asm-explore {name} ")
    yield refused(4, [name, "-", "--script", "-", "--draw", "7"], "error: the specification and the script can't both be standard input\n")
    # Where nothing is chosen, nothing is drawn.
    for value in ("0", "+07", str((1 << 64) - 1)):
        yield Row([name, "--draw", value, *ONE], 0, "# limit after step 1\n", is_front=True, text=STILL)


def of_words(command):
    name = command.name
    missing = "error: the following required arguments were not provided:\n  <SPEC>\n"
    yield refused(4, [name], missing, f"Usage: asm-explore {name} <SPEC>\n")
    yield refused(4, [name, "--steps", "3"], missing)
    yield refused(4, [name, "-", "-"], "error: unexpected argument '-' found\n")
    options = ("--walks", "--always", "--within", "--states", "--outcomes", "--deadlock-unless", "--workers", "--only", "--width", "--trace")
    for option in (*options, "--table", "--dot", "--dot-only", "--seed", "--draw", "--html", "--json"):
        if option not in command.options:
            yield refused(4, [name, "-", option, "1"], f"error: unexpected argument '{option}' found\n")
    if "--draw" in command.options:
        yield from of_seeds(command)
    yield refused(4, [name, "-", "--script"], "error: a value is required for '--script <FILE>' but none was supplied\n")
    twice = "error: the argument '--script <FILE>' cannot be used multiple times\n"
    yield refused(4, [name, "-", "--script", "a", "--script", "b"], twice)
    yield refused(4, [name, "-", "--script", "-", "--script", "-"], twice)
    # Standard input is one text.
    yield refused(4, [name, "-", "--script", "-"], "the specification and the script can't both be standard input\n")
    yield refused(4, [name, "--script=-", "-"], "the specification and the script can't both be standard input\n")
    # Words are looked at before a file is.
    yield refused(4, [name, "none", "--turns", "0"], "error: invalid value '0' for '--turns <N>': 0 is not in 1..=1000000\n")
    for given in ([name, b"\xff"], [name, "-", "--script", b"\xff"]):
        yield refused(4, given, "asm-explore: a word isn't UTF-8\n")
    for given in ([name, "--version"], [name, "-", "-V"]):
        yield Row(given, 0, "asm-explore 1.0.0\n")
    shows = (f"Usage: asm-explore {name} [OPTIONS] <SPEC>\n", "--steps <N>", "--turns <N>", "--script <FILE>", "[default: 1000]", *command.options)
    for given in ([name, "--help"], [name, "-", "-h"], ["help", name]):
        yield Row(given, 0, is_front=True, shows=shows)
    yield Row(["--help"], 0, is_front=True, shows=(name,))
    for given in (ONE, ["--steps", "1", "--", "-"], ["--steps=+0001", "-"], ["--turns", "1000", *ONE]):
        yield Row([name, *given], 0, command.coin)


def of_texts(command):
    name = command.name
    yield refused(2, [name, "-"], "standard input:1:10: ", text="CoreASM T$")
    yield refused(2, [name, "text"], "text:3:15: ", files={"text": HEAD + "rule M = skip skip\n"})
    yield refused(2, [name, "text"], "text:4:15: ", files={"text": HEAD + "function controlled x\nrule M = x := y\n"})
    yield refused(2, [name, "-"], "standard input", text="")
    yield refused(2, [name, "/dev/zero"], "/dev/zero: ")
    for file in ("none", "none/text", ".", ""):
        yield refused(3, [name, file], f"asm-explore: {file}: the file can't be read\n")
        yield refused(3, [name, "-", "--script", file], f"asm-explore: {file}: the file can't be read\n")
    yield refused(3, [name, "-"], "asm-explore: standard input can't be read\n", input=".")
    yield refused(3, [name, "coin", "--script", "-"], "asm-explore: standard input can't be read\n", input=".", files={"coin": COIN})
    # A script that can't be read comes before what is wrong with the text.
    yield refused(3, [name, "-", "--script", "none"], "asm-explore: none: the file can't be read\n", text="$")


# Scripts that are refused: the number of the fault, and the line.
REFUSED = [
    ("1 - tails\n", 1, 1),
    ("# 1\n" * 6 + "7\n", 1, 7),
    ("0 - 1\n", 1, 1),
    ("1  - 1\n", 1, 1),
    ("1 - 1 \n", 1, 1),
    ("* * 1\n", 1, 1),
    ("1 1. 1\n", 1, 1),
    ("1 1,2 1\n", 1, 1),
    ("1 - 1234567890\n", 1, 1),
    ("1 - 1\n2 - 0\n1 - 0\n", 2, 3),
    ("1 01 2\n1 1 2", 2, 2),
    ("* - 1\n1 - 0\n* - 0\n", 2, 3),
    ("1 - 1\r\n\r\n\r\r\n", 1, 3),
]


def of_refused_scripts(command):
    name = command.name
    for script, number, line in REFUSED:
        yield refused(2, [name, "-", "--script", "bad"], f"bad:{line}", f"script {number}: ", files={"bad": script})
        given = {"text": script, "files": {"coin": COIN}}
        yield refused(2, [name, "coin", "--script", "-"], f"standard input:{line}", f"script {number}: ", **given)
    long = {"files": {"long": "#" * (LONGEST_TEXT + 1)}}
    yield refused(2, [name, "-", "--script", "long"], "long: script 3: ", **long)
    yield refused(2, [name, "-", "--script", "/dev/zero"], "/dev/zero: script 3: ")
    yield Row([name, *ONE, "--script", "long"], 0, command.coin, files={"long": "#" * LONGEST_TEXT})
    # What is wrong with the text comes before what is wrong with the script.
    yield refused(2, [name, "-", "--script", "bad"], "standard input:1:1: ", text="$", files={"bad": "7\n"})


def of_streams(command):
    name = command.name
    for shell in ('exec "$@" >&-', 'exec "$@" 1</dev/null', 'exec "$@" >/dev/full'):
        yield refused(3, [name, "-"], UNWRITTEN, shell=shell)
        yield refused(3, [name, "--help"], UNWRITTEN, shell=shell)
        yield refused(3, [name, "-"], UNWRITTEN, text=CLASH, shell=shell)
        yield refused(2, [name, "-"], "standard input:1:1: ", text="$", shell=shell)
    yield refused(3, [name, "-"], "asm-explore: standard input can't be read\n", shell='exec "$@" <&-')
    yield refused(3, [name, "coin", "--script", "-"], "asm-explore: standard input can't be read\n", files={"coin": COIN}, shell='exec "$@" <&-')
    yield Row([name, "-"], 2, text="$", shell='exec "$@" 2>&-')
    yield Row([name, "-"], 2, text="$", error="/dev/full")
    yield Row([name, "-"], 3, shell='exec "$@" <&- >&- 2>&-')
    yield Row([name, *ONE], 0, command.coin, shell='exec "$@" 2>&-')
    named = command.coin.replace("THIS\n", "THIS coin\n")
    yield Row([name, "coin", "--steps", "1"], 0, named, files={"coin": COIN}, shell='exec "$@" <&-')
    # A reader who is gone before the answer is written.
    yield Row([name, "-"], 0, "status 3\n", (UNWRITTEN,), shell='exec 3>&1; { sleep 0.3; "$@"; echo "status $?" >&3; } | true')


def of_all(command):
    for of in (of_numbers, of_said_numbers, of_words, of_texts, of_refused_scripts, of_streams):
        yield from of(command)
