"""The calls of `asm-explore random` that are compared with the model of bench/explore: texts of the examples, and some made for what is drawn
and for what is left out."""
import argparse
import sys
from typing import NamedTuple

from program import HEAD, ROOT

sys.path.append(str(ROOT / "bench" / "explore"))
from random_runs import Machine, Question, answer_to  # noqa: E402

EXAMPLES = ROOT / "examples"
GREATEST_SEED = (1 << 64) - 1


class Call(NamedTuple):
    """A text, which is one of the examples or comes on standard input, and the words behind it, in the folder of the examples."""

    spec: str
    text: str
    words: tuple

    def question(self):
        return asked_by(self.words)

    def machine(self):
        question = self.question()
        return Machine(self.text, question.turns, question.always, question.when_quiet)

    def answer(self):
        """What is to be answered."""
        return answer_to(self.machine(), self.question(), self.spec)

    def with_seed(self, seed):
        return self._replace(words=(*self.words, "--seed", str(seed)))


def asked_by(words):
    """What the words ask for."""
    known = argparse.ArgumentParser()
    for option, default in Question()._asdict().items():
        if option not in ("always", "when_quiet"):
            known.add_argument(f"--{option}", type=int, default=default)
    known.add_argument("--always", action="append", default=[])
    known.add_argument("--deadlock-unless", dest="when_quiet")
    given = known.parse_args(words)
    return Question(**{**vars(given), "always": tuple(given.always)})


def example(name, *words):
    return Call(f"{name}.asm", (EXAMPLES / f"{name}.asm").read_text(), words)


def of(text, *words):
    return Call("-", HEAD + text, words)


CRITICAL = "not (stage(0) = critical and stage(1) = critical)"

# Each of some locks has to be opened in its turn; another try closes them all.
LOCK = """universe Wheel = 0 .. 3
universe Digit = 0 .. 4
function controlled open initially 0
function controlled tries initially 0
function static code : Wheel initially { (0) -> 3, (1) -> 0, (2) -> 4, (3) -> 1 }
rule M = choose d in Digit do par
  if d = code(open) then open := open + 1 else open := 0 endif
  tries := tries + 1
endpar endchoose
"""

# What is asked depends on what was chosen before, in this step and in those before it; some chooses have no candidate.
ASKED = """universe U = 0 .. 5
enum E = { a, b, c }
function controlled x initially 0
function controlled y : U
function controlled e
rule M = par
  choose u in U with u > x do par
    x := u
    choose v in U with v <= u do
      if v mod 2 = 0 then choose w in E do e := w endchoose
      else forall i in U with i <= v do choose j in U with j != i do y(i) := j endchoose endforall endif
    endchoose
  endpar ifnone choose w in E with w != e do par e := w x := 0 endpar endchoose endchoose
  choose u in U with u > 7 do x := 9 endchoose
endpar
"""

# Turns in which something is chosen, and a rule that is called in each.
TURNS = """universe U = 0 .. 3
function controlled n
function controlled last
rule M = seq
  n := 0
  while n < 4 do choose u in U with u != last do Take(u) endchoose endwhile
endseq
rule Take(u) = par last := u n := n + 1 if u = 3 then n := n endif endpar
"""

# An iterate that ends by choice alone.
EXHAUSTED = """universe U = 0 .. 9
function controlled n initially 0
rule M = par
  iterate choose u in U with n < 90 do if u > 0 then n := (n + 1) mod 90 endif endchoose enditerate
  choose u in U do skip endchoose
endpar
"""

# Updates outside the function, of which only some are chosen.
OUTSIDE = """universe U = 1 .. 3
universe Way = -1 .. 1
function controlled at initially 2
function controlled seen : U
rule M = choose way in Way do par at := at + way seen(at + way) := 1 endpar endchoose
"""

# More candidates than a byte can number, and a fault of a few of them.
MANY = """universe U = 1 .. 300
function controlled x initially 0
rule M = choose u in U do choose v in U with v > u and v < u + 100 do x := v - u endchoose endchoose
"""

# Paths with numbers of several digits.
FAR = """universe U = 0 .. 1199
function controlled f : U
rule M = forall u in U with u mod 300 = 299 do choose v in U with v mod 400 = 3 do f(u) := v endchoose endforall
"""

# States in which nothing changes whatever is chosen, and others in which that depends on the choice.
STUCK = """universe U = 0 .. 5
function controlled n initially 1
rule M = if n != 3 and n != 0 then choose u in U do if u != 4 then n := (n * u) mod 7 endif endchoose endif
"""

EATING = "not (exists p in Philosopher with meals(p) = 2)"
WAITING = "(exists s in Seat with holder(s) != s)"

CALLS = [
    example("mutex_wrong"),
    example("mutex_wrong", "--always", CRITICAL, "--steps", "40"),
    example("mutex", "--runs", "20", "--steps", "200", "--always", CRITICAL, "--always", "not (flag(0) and flag(1))"),
    example("mutex", "--runs", "30", "--steps", "100", "--always", CRITICAL),
    example("alternating_wrong", "--steps", "100"),
    example("alternating", "--steps", "60", "--runs", "50"),
    example("termination_wrong"),
    example("bakery_wrong", "--always", "isSafe", "--steps", "100"),
    example("raft_wrong", "--always", "isSafe", "--steps", "60"),
    example("raft", "--always", "isSafe", "--steps", "40", "--runs", "10"),
    example("window_wrong", "--always", "isSafe"),
    example("msi_wrong", "--always", "isSafe", "--steps", "100"),
    example("stack_aba_wrong", "--always", "isSafe", "--steps", "150"),
    example("commit", "--always", "isSafe", "--steps", "60", "--runs", "20"),
    example("philosophers", "--always", EATING, "--steps", "60"),
    example("gate", "--steps", "50", "--runs", "5"),
    example("draw", "--runs", "200"),
    # Elections choose nothing: each run is the same, and ends where nothing changes.
    example("election", "--runs", "3"),
    example("election", "--always", "leader < 6"),
    example("election", "--deadlock-unless", "false"),
    example("election", "--deadlock-unless", "leader != undef", "--runs", "3"),
    example("counter", "--always", "x < 3", "--steps", "3"),
    example("counter", "--always", "x < 3", "--steps", "2", "--runs", "7"),
    example("guide/forks", "--always", WAITING),
    example("guide/forks", "--deadlock-unless", "false"),
    example("guide/forks", "--deadlock-unless", WAITING, "--always", WAITING, "--steps", "30"),
    example("guide/outside"),
    example("guide/forever", "--turns", "5"),
    example("guide/dice", "--turns", "30", "--steps", "20"),
    example("guide/quorum", "--steps", "5"),
    example("guide/coin", "--always", "shown != tails"),
    of(LOCK, "--always", "open != 3", "--steps", "200"),
    of(LOCK, "--always", "open < 2 or tries < 30", "--steps", "60"),
    of(LOCK, "--always", "tries != 50", "--always", "open != 4", "--steps", "50", "--runs", "40"),
    of(ASKED, "--always", "y(1) != 4 or e != b", "--steps", "30"),
    of(ASKED, "--always", "not (y(0) = 5 and y(1) = 0 and y(2) = 1)", "--steps", "80", "--runs", "300"),
    of(TURNS, "--steps", "10", "--runs", "30"),
    of(TURNS, "--steps", "10", "--turns", "4", "--runs", "3"),
    of(EXHAUSTED, "--turns", "20", "--steps", "30"),
    of(EXHAUSTED, "--turns", "91", "--steps", "8", "--runs", "20"),
    of(OUTSIDE),
    of(OUTSIDE, "--always", "at != 2", "--steps", "9"),
    of(MANY, "--always", "x != 99", "--steps", "50", "--runs", "20"),
    of(MANY, "--always", "x < 80", "--steps", "4", "--runs", "20"),
    of(FAR, "--always", "f(299) = undef or f(299) = f(1199) or f(599) != f(899)", "--steps", "4", "--runs", "20"),
    of(STUCK, "--deadlock-unless", "n = 3", "--steps", "40"),
    of(STUCK, "--deadlock-unless", "n > 0", "--steps", "40", "--runs", "30"),
    of(STUCK, "--deadlock-unless", "n = 3", "--always", "n != 5", "--steps", "40"),
    of("rule M = skip\n", "--deadlock-unless", "false"),
    of("rule M = skip\n", "--deadlock-unless", "false", "--steps", "0", "--runs", "2"),
    of("rule M = skip\n", "--runs", "20000", "--steps", "1000000"),
]

# Small specifications, each run of which goes wrong that is long enough, with the number of seeds that are tried.
SEEDED = [
    (example("mutex_wrong"), 400),
    (example("guide/forks", "--always", WAITING), 300),
    (example("stack_aba_wrong", "--always", "isSafe", "--steps", "100"), 150),
    (of(LOCK, "--always", "open != 2", "--steps", "100"), 150),
]

SEEDS = [0, 1, GREATEST_SEED]
