"""Texts for workers: workloads whose steps have one wide region, regions of cheap elements, and regions over many elements."""
from workloads import COUNTED, HEAD, WORKLOADS, Workload

INDEX = "universe I = 0 .. {last}\nfunction controlled f : I initially 0\n"


def sums(members):
    """So many operations on an element, of about 0.1 microseconds each."""
    return " + ".join(f"i * {k + 2} - x" for k in range(members // 3))


def costly(operations):
    """So many operations for each of 4,096 elements, and an update for one in sixteen."""
    return (
        HEAD + INDEX.format(last=4095) + COUNTED
        + f"rule M = par x := x + 1 forall i in I do let s = {sums(operations)} in"
        " if s mod 16 = 0 then f(i) := s mod 1000 endif endlet endforall endpar\n"
    )


def branches(count):
    """A `par` of so many parts, each of which tests 1,024 elements."""
    parts = " ".join(f"if (exists i in I with i * {k + 3} + x < 0) then y := {k} endif" for k in range(count))
    return HEAD + "universe I = 0 .. 1023\n" + COUNTED + f"function controlled y\nrule M = par x := x + 1 {parts} endpar\n"


def strided(operations):
    """So many operations for each fourth of 4,096 elements, and few for the others."""
    return (
        HEAD + INDEX.format(last=4095) + COUNTED
        + f"rule M = par x := x + 1 forall i in I do if i mod 4 = 0 then let s = {sums(operations)} in"
        " if s mod 16 = 0 then f(i) := s mod 1000 endif endlet endif endforall endpar\n"
    )


def lumped(operations):
    """So many operations for each of the first 64 of 4,096 elements, 64 times, and few for the others."""
    return (
        HEAD + INDEX.format(last=4095) + "universe T = 0 .. 63\n" + COUNTED
        + "rule M = par x := x + 1 forall i in I do"
        f" if i < 64 then if (exists t in T with t + {sums(operations)} = 1000000007) then f(i) := 1 endif endif endforall endpar\n"
    )


# Workloads of one wide region in each step, with fewer steps where a run is long.
WIDE = {
    "costly": Workload("operations for each of 4,096 elements", 72, costly, 100),
    "costlier": Workload("operations for each of 4,096 elements", 300, costly, 24),
    "branches": Workload("parts that test 1,024 elements", 128, branches, 30),
    "strided": Workload("operations for each fourth of 4,096 elements", 360, strided, 50),
    "lumped": Workload("operations for 64 of 4,096 elements, 64 times", 90, lumped, 50),
}
for name, steps in (("calls", 20), ("grid", 150), ("life", 50), ("elements", 500), ("quantifiers", 500), ("tables", 5000), ("wide", 10_000)):
    known = WORKLOADS[name]
    WIDE[name] = Workload(known.of, known.size, known.text, steps)

# Workloads of many small regions.
SMALL = {
    "sort": Workload("numbers", 1024, WORKLOADS["sort"].text, 2),
    "turns": Workload("turns", 100_000, WORKLOADS["turns"].text, 5),
    "fresh": Workload("rows of 127", 16, WORKLOADS["fresh"].text, 5),
}


def cheap(elements):
    """A `par` of two assignments, or a `forall` over so many elements with one for each."""
    if elements == 2:
        return HEAD + COUNTED + "function controlled y initially 0\nrule M = par x := y + 1 y := x + 1 endpar\n"
    return HEAD + INDEX.format(last=elements - 1) + "rule M = forall i in I do f(i) := f(i) + 1 endforall\n"


def many(elements, locations):
    """A region over so many elements, at most 4,096 in a row, each of which changes one of so many locations."""
    columns = min(elements, 4096)
    rows = elements // columns
    return (
        HEAD + f"universe I = 0 .. {rows - 1}\nuniverse J = 0 .. {columns - 1}\nuniverse K = 0 .. 15\nuniverse L = 0 .. {locations // 16 - 1}\n"
        "function controlled f : K * L initially 0\n"
        f"rule M = forall i in I do forall j in J do f(j mod 16, (j div 16 + i * {columns // 16}) mod {locations // 16}) := 1 endforall endforall\n"
    )
