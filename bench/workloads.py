"""The workloads: for each its text by size, its words, and what its size counts."""
import os
from dataclasses import dataclass
from typing import Callable, Optional

ROOT = os.path.dirname(os.path.dirname(os.path.abspath(__file__)))
HEAD = "CoreASM T\ninit M\n"
COUNTED = "function controlled x initially 0\n"


def counter(steps):
    return HEAD + COUNTED + "rule M = x := x + 1\n"


def wide(functions):
    """So many functions, each of which takes its neighbour's value in each step."""
    return (
        HEAD
        + "".join(f"function controlled x{i} initially {i}\n" for i in range(functions))
        + "rule M = par " + " ".join(f"x{i} := x{(i + 1) % functions} + 1" for i in range(functions)) + " endpar\n"
    )


def chains(members):
    """A chain of so many members, and one of a quarter as many pairs in parentheses."""
    flat = " + ".join(f"x * {k} - {k}" for k in range(members // 4))
    pairs = " + ".join(f"(x + {k}) * (x - {k})" for k in range(members // 4))
    return HEAD + COUNTED + f"function controlled y\nfunction controlled z\nrule M = par x := x + 1 y := {flat} z := {pairs} endpar\n"


def congruences(members):
    """A sum of so many remainders and one of as many quotients, of products up to the greatest number, which neither sum passes."""
    remainders = " + ".join(f"((x + {k}) * 99999989 + {k}) mod 999999937" for k in range(members))
    quotients = " + ".join(f"x * 99999989 div -{k + members}" for k in range(members))
    return (
        HEAD + "function controlled x initially 12345\nfunction controlled y\nfunction controlled z\n"
        f"rule M = par x := (x * 99999989 + 7) mod 999999937 y := {remainders} z := {quotients} endpar\n"
    )


def quantifiers(elements):
    """Quantifiers over so many elements: one that goes through all of them, and one that ends at the last."""
    last = elements - 1
    return (
        HEAD + f"universe I = 0 .. {last}\n" + COUNTED + "function controlled y\nfunction controlled z\n"
        f"rule M = par x := x + 1 y := (forall i in I holds i * 3 + x >= i and i != x + {elements})"
        f" z := (exists i in I with i * 2 = x + {2 * last} - x) endpar\n"
    )


def tables(reads):
    """So many reads of a static table of 4,096 entries, and of a controlled function of two arguments."""
    entries = ", ".join(f"({k}) -> {(k * 2017 + 5) % 4096}" for k in range(4096))
    table = " + ".join(f"g(g((x + {k}) mod 4096))" for k in range(reads // 2))
    cells = " + ".join(f"f(x mod 64, (x + {k}) mod 64)" for k in range(reads // 2))
    return (
        HEAD + "universe I = 0 .. 4095\nuniverse J = 0 .. 63\n" + f"function static g : I initially {{ {entries} }}\n"
        "function controlled f : J * J initially 3\n" + COUNTED + "function controlled y\nfunction controlled z\n"
        f"rule M = par x := x + 1 f(x mod 64, x div 64 mod 64) := x y := {table} z := {cells} endpar\n"
    )


def derived(leaves):
    """Derived functions that each use the next twice, down to so many leaves."""
    depth = leaves.bit_length()
    functions = "derived d0(n) = n * 2 + 1\n" + "".join(f"derived d{k}(n) = d{k - 1}(n) + d{k - 1}(n + {k})\n" for k in range(1, depth))
    return HEAD + COUNTED + "function controlled y\n" + functions + f"rule M = par x := x + 1 y := d{depth - 1}(x) endpar\n"


def bound(tests):
    """Quantifiers over two elements inside each other, with so many tests of the outermost name at the bottom."""
    depth = tests.bit_length() - 1
    inside = "a0 + x < 0"
    for k in reversed(range(depth)):
        inside = f"(exists a{k} in T with {inside})"
    return HEAD + "universe T = 0 .. 1\n" + COUNTED + f"function controlled y\nrule M = par x := x + 1 y := {inside} endpar\n"


def elements(count):
    """A `forall` over so many elements with arithmetic in its condition and its body."""
    return (
        HEAD + f"universe I = 0 .. {count - 1}\nfunction controlled f : I initially 0\n" + COUNTED
        + "rule M = par x := x + 1 forall i in I with (f(i) + i) mod 2 = x mod 2 do f(i) := (f(i) * 3 + i + x) mod 1000 endforall endpar\n"
    )


def grid(rows):
    """A `forall` of so many rows by 64 with a `choose` inside, which a script answers at some paths."""
    return (
        HEAD + f"universe I = 0 .. {rows - 1}\nuniverse J = 0 .. 63\nuniverse K = 0 .. 7\nfunction controlled f : I * J initially 0\n" + COUNTED
        + "rule M = par x := x + 1 forall i in I do forall j in J do choose k in K with (k + i + j) mod 2 = x mod 2 do f(i, j) := k + x mod 2"
        " endchoose endforall endforall endpar\n"
    )


def grid_script(rows):
    """Lines for a quarter of the grid's even paths in each of the first hundred steps."""
    return "".join(
        f"{step} 1.{i}.{j} {i + j}\n" for step in range(1, 101) for i in range(0, rows, 2) for j in range(0, 64, 2) if (i * 7 + j) % 4 == 0
    )


def turns(count):
    """An `iterate` of a thousandth of so many turns, each of which puts one location back and counts it up again in an `iterate` of its own.

    Each `iterate` has one turn more, which is empty: 999 and 999 make 1,000,000 turns, and none has more than the limit of 1000 allows.
    """
    outer = count // 1000 - 1
    return (
        HEAD + COUNTED + "function controlled y\n"
        f"rule M = seq y := 0 iterate if y < {outer} then seq par x := 0 y := y + 1 endpar"
        " iterate if x < 999 then x := x + 1 endif enditerate endseq endif enditerate endseq\n"
    )


def whiles(count):
    """A `while` of so many turns, the last of which is empty."""
    return HEAD + COUNTED + f"rule M = seq x := 0 while x < {count - 1} do x := x + 1 endwhile endseq\n"


def answers(count):
    """So many calls that answer, by a hundred elements in each turn: each reads its own location and, by name, its neighbour's."""
    return (
        HEAD + "universe I = 0 .. 99\nfunction controlled f : I initially 1\n" + COUNTED
        + f"rule M = seq x := 0 while x < {count // 100} do par x := x + 1 forall i in I do f(i) <- Mix(f((i + 1) mod 100) + i * x) endforall endpar"
        " endwhile endseq\n"
        "rule Mix(n) = seq result := result * 3 + n result := result mod 1000 endseq\n"
    )


def fresh(rows):
    """A turn for each of so many rows and 127 columns, which changes a location that no turn before has changed, and reads the last one."""
    return (
        HEAD + f"universe I = 0 .. {rows - 1}\nuniverse J = 0 .. 126\nfunction controlled f : I * J initially 0\n"
        "function controlled i\nfunction controlled j\n"
        f"rule M = seq i := 0 iterate if i < {rows} then seq j := 0 iterate if j < 127 then par"
        " if j = 0 then f(i, 0) := i else f(i, j) := f(i, j - 1) + 1 endif j := j + 1 endpar endif enditerate i := i + 1 endseq endif enditerate endseq\n"
    )


def locations(functions):
    """So many functions of 4,096 locations each, all of which but one change in each step."""
    updates = " ".join(f"f{k}(i) := f{(k + 1) % functions}(i) + {k}" for k in range(functions))
    return (
        HEAD + "universe I = 0 .. 4094\n" + "".join(f"function controlled f{k} : I initially {k}\n" for k in range(functions))
        + f"rule M = forall i in I do par {updates} endpar endforall\n"
    )


def one_location(functions):
    """So many functions of 4,096 locations each, of which one location changes in each step."""
    last = functions - 1
    return (
        HEAD + "universe I = 0 .. 4094\n" + "".join(f"function controlled f{k} : I\n" for k in range(last))
        + f"function controlled f{last} : I initially 0\nrule M = f{last}(4094) := f{last}(4094) + 1\n"
    )


def choices(rows):
    """A `choose` in each of so many rows of 256, for each of which a script has a line for every step."""
    return (
        HEAD + f"universe I = 0 .. {rows - 1}\nuniverse J = 0 .. 255\nuniverse K = 0 .. 7\nfunction controlled f : I * J initially 0\n" + COUNTED
        + "rule M = par x := x + 1 forall i in I do forall j in J do choose k in K do f(i, j) := k + x endchoose endforall endforall endpar\n"
    )


def choices_script(rows):
    """A line for every step at each of these places: with 255 rows somewhat less than the 1,048,576 bytes that a script may have."""
    return "".join(f"* 1.{i}.{j} {(i * 31 + j * 7) % 1000}\n" for i in range(rows) for j in range(256))


def parts(count):
    """A `seq` of so many parts, which change 256 locations in turn, each by what the part before has made."""
    return (
        HEAD + "universe I = 0 .. 255\nfunction controlled f : I initially 0\nrule M = seq "
        + " ".join(f"f({k % 256}) := (f({(k + 255) % 256}) * 3 + {k % 7}) mod 1000" for k in range(count)) + " endseq\n"
    )


def calls(depth):
    """Calls so many deep for each of 4,096 elements, with two parameters by name, at the first of which each rule on the way looks."""
    chain = "rule R0(a, b) = f(a mod 4096) := b mod 1000\n"
    chain += "".join(f"rule R{k}(a, b) = if a >= 0 then R{k - 1}(a + {k}, b - x) endif\n" for k in range(1, depth))
    return (
        HEAD + "universe I = 0 .. 4095\nfunction controlled f : I initially 0\n" + COUNTED + chain
        + f"rule M = par x := x + 1 forall i in I do R{depth - 1}(i, f(i) + i) endforall endpar\n"
    )


def example(name):
    with open(os.path.join(ROOT, "examples", name + ".asm")) as text:
        return text.read()


def sort(numbers):
    """The example, for so many numbers."""
    return example("sort").replace("0 .. 1023", f"0 .. {numbers - 1}").replace("width < 1024", f"width < {numbers}")


def life(rows):
    """The example, with so many rows and 64 columns."""
    text = example("life").replace("Row = 0 .. 63", f"Row = 0 .. {rows - 1}")
    text = text.replace("before(row)", "above(row)").replace("after(row)", "below(row)")
    for row in (31, 32, 33):
        text = text.replace(f"Change({row}, ", f"Change({row - 32 + rows // 2}, ")
    return text + f"derived above(row) = (row + {rows - 1}) mod {rows}\nderived below(row) = (row + 1) mod {rows}\n"


@dataclass
class Workload:
    # What the size counts.
    of: str
    size: int
    text: Callable[[int], str]
    # The number of steps, where it isn't the size itself.
    steps: Optional[int]
    script: Optional[Callable[[int], str]] = None
    # How many calls of the program make one run: more than one where a call is short.
    calls: int = 1
    # The limit of turns, where it isn't the usual one.
    turns: Optional[int] = None

    def words(self, size):
        limit = ["--turns", str(self.turns)] if self.turns else []
        return ["--steps", str(self.steps if self.steps is not None else size), *limit]


WORKLOADS = {
    # The cost of a step and of its lines.
    "counter": Workload("steps", 1_000_000, counter, None, calls=4),
    # As many functions as a text may nearly have, all changed in each step.
    "wide": Workload("functions", 256, wide, 10_000, calls=2),
    # Terms: long chains, quantifiers, tables, derived functions, names bound far out.
    "chains": Workload("members", 1000, chains, 10_000),
    "congruences": Workload("members", 400, congruences, 10_000),
    "quantifiers": Workload("elements", 4096, quantifiers, 1000),
    "tables": Workload("reads", 400, tables, 10_000),
    "derived": Workload("leaves", 128, derived, 10_000),
    "bound": Workload("tests", 1024, bound, 3000),
    # Elements, choices and scripts.
    "elements": Workload("elements", 4096, elements, 1000),
    "grid": Workload("rows of 64", 64, grid, 300),
    "scripted": Workload("rows of 64", 64, grid, 300, script=grid_script),
    "every_step": Workload("rows of 256", 255, choices, 10, script=choices_script),
    # As many locations as a text may have: all changed in each step, and one.
    "locations": Workload("functions of 4,096", 16, locations, 20),
    "one_location": Workload("functions of 4,096", 16, one_location, 100_000),
    # Sequences, iteration and calls.
    "turns": Workload("turns", 1_000_000, turns, 5),
    "while": Workload("turns", 1_000_000, whiles, 5, turns=1_000_000),
    "answers": Workload("calls", 100_000, answers, 10, turns=1_000_000),
    # 16,257 locations, each changed by a turn of its own.
    "fresh": Workload("rows of 127", 128, fresh, 40),
    "parts": Workload("parts", 4096, parts, 1000),
    "calls": Workload("calls deep", 16, calls, 50),
    # Two of the examples.
    "sort": Workload("numbers", 1024, sort, 20),
    "life": Workload("rows of 64", 64, life, 100),
}
