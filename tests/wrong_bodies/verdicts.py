"""Reads what a check says of edited functions: which goal of its own refuses each wrong body."""
import re

# A line that is placed in a file: what is refused, or what is left unproved.
PLACED = re.compile(r"(?P<note>note: )?(?:\./)?(?P<file>\S+?):(?P<line>\d+):\d+: (?P<said>.*)")
FUNCTION = re.compile(r"fn (\S+): (.*)")
UNPROVED = re.compile(r"it is not proved that .*?\(`([^`]+)`\)(.*)")
SEARCHED = re.compile(r"`search` did not prove ((?:`[^`]+`(?:, | and )?)+)")
REFUSED = re.compile(r"error: `([^`]+)`")
# What a proof file cites and an edit took away says nothing of a contract, and what follows from
# that neither.
LOST = re.compile(r"has no field|is not in scope|has no `|was not admitted")
FOLLOWS = re.compile(r"error: \d+ declarations? that depends? on ")
FALSE = "allow values at which this goal is false"
# The toolchain's own complaints: the check came to no contract.
UNREAD = re.compile(r"error\[[\w-]+\]|^rattle: |: error")


class Goal:
    """A goal that isn't proved."""

    def __init__(self, function, name, is_sure=True):
        self.function, self.name = function, name
        # Whether it fails for more than a lost name.
        self.is_sure = is_sure

    def shown(self):
        return f"{self.function} {self.name}"


class Said:
    """What a check said."""

    def __init__(self, crate, status, output):
        self.status, self.output = status, output
        self.lines = output.rstrip("\n").split("\n")
        self.functions, self.placed = {}, []
        for line in self.lines:
            found = FUNCTION.match(line)
            if found and found[1].startswith(f"{crate}::"):
                self.functions[found[1].removeprefix(f"{crate}::")] = found[2]
            found = PLACED.match(line)
            if found and (found["note"] or found["said"].startswith("error")):
                self.placed.append(found)

    def reached_contracts(self):
        """Returns whether the check came as far as to judge functions."""
        return self.status in (0, 1) and self.lines[-1].startswith(("logic=", "only="))

    def why_not(self):
        """Returns the line that says why it judged nothing."""
        told = [line for line in self.lines if UNREAD.search(line)]
        return (told or self.lines[-1:])[0][:200]

    def names_of(self, function):
        """Returns the names under which the check speaks of a function and its closures."""
        head = "::".join([*function.module, ""])
        own = [function.path()] if function.path() in self.functions else []
        if function.trait and not own:
            # The name of a method of a trait with odd arguments can be told only so far.
            parts = [head + function.owner, *function.trait]
            pattern = "".join(f"{it}[^:]*" for it in parts) + f"::{function.name}"
            own = [it for it in self.functions if re.fullmatch(pattern, it)]
        if len(own) > 1:
            return []
        owner = f"{function.owner}::" if function.owner else ""
        inner = (f"{head}fn::{function.name}::", f"{head}{owner}fn::{function.name}::")
        return own + [it for it in self.functions if it.startswith(inner)]

    def goals_of(self, function):
        """Returns the goals of a function that aren't proved, sorted.

        Beside them it returns the lines on names that its proof files cite and that are gone.
        """
        goals, lost = {}, []
        for name in self.names_of(function):
            if self.functions[name] == "proved":
                continue
            found, gone = self.goals_in(function, name)
            for goal in searched_in(self.functions[name]):
                if is_of(function, name, goal):
                    found.setdefault(goal, False)
            lost += gone
            for goal, is_sure in found.items():
                made = Goal(name, goal, is_sure or not gone)
                goals.setdefault(made.shown(), made)
        return [goals[it] for it in sorted(goals)], lost

    def goals_in(self, function, name):
        """Returns the goals that fail in a function's lines and proof files.

        Each comes with whether it surely fails for more than a lost name. Beside them it returns
        the lines on lost names.
        """
        goals, lost = {}, []
        for found in self.placed:
            file, said = found["file"], found["said"]
            is_line = file == function.file and is_within(function, int(found["line"]))
            unproved = UNPROVED.match(said)
            if is_line and unproved:
                goals[unproved[1]] = goals.get(unproved[1], False) or FALSE in unproved[2]
            elif not said.startswith("error") or FOLLOWS.match(said):
                continue
            elif is_line or is_own(function, name, file, said):
                goal = REFUSED.match(said)
                if LOST.search(said):
                    lost.append(f"{file}:{found['line']}: {said}")
                else:
                    goals[goal[1] if goal else said.removeprefix("error: ")[:80]] = True
        return goals, lost

    def goals_anywhere(self):
        """Returns what fails in the crate for more than a lost name: goals, and then lemmas."""
        goals, lemmas = {}, {}
        failed = [name for name, said in self.functions.items() if said != "proved"]
        for name in failed:
            for goal in searched_in(self.functions[name]):
                goals[f"{name} {goal}"] = Goal(name, goal)
        for found in self.placed:
            goal = REFUSED.match(found["said"])
            if not goal or LOST.search(found["said"]):
                continue
            folders = ((it, folders_of(it)) for it in failed)
            function = next((it for it, own in folders if found["file"].startswith(own)), None)
            made = Goal(function or found["file"], goal[1])
            (goals if function else lemmas)[made.shown()] = made
        return [goals[it] for it in sorted(goals)] + [lemmas[it] for it in sorted(lemmas)]


def searched_in(said):
    """Returns the goals of which a function's line says that no proof was found."""
    found = SEARCHED.search(said)
    return re.findall(r"`([^`]+)`", found[1]) if found else []


def is_within(function, line):
    """Returns whether a line of its file is one of the function's."""
    return function.first_line <= line <= function.last_line


def is_own(function, name, file, said):
    """Returns whether an error in a proof file is in a proof of this function, or of its own part
    of the recursion that it is in."""
    folders, goal = folders_of(name), REFUSED.match(said)
    if file.startswith(folders):
        return True
    is_shared = function.cycle and file.startswith(folders_of_cycle(name, function.cycle))
    return bool(is_shared and goal and is_of(function, name, goal[1]))


def is_of(function, name, goal):
    """Returns whether a goal is one of this function, and not of another of its recursion.

    In a recursion across modules its name begins with the modules that differ.
    """
    parts = name.split("::")
    named = tuple(f"{'::'.join(parts[at:])}-" for at in range(len(parts)))
    return not function.shares_cycle or goal.startswith(named)


def folders_of(name):
    """Returns the folders that a function's proof may stand in.

    That of one that calls itself begins with a plus.
    """
    above, _, last = name.replace("::", "/").rpartition("/")
    above = f"proofs/{above}/" if above else "proofs/"
    return f"{above}{last}/", f"{above}+{last}/"


def folders_of_cycle(name, cycle):
    """Returns the folders in which the proof of a function's recursion may stand.

    It is in the module that has all of the recursion.
    """
    folders = ["proofs"]
    for module in name.split("::")[:-1]:
        folders.append(f"{folders[-1]}/{module}")
    return tuple(f"{folder}/+{cycle}/" for folder in folders)


class Verdict:
    """What the try of a wrong body came to."""

    def __init__(self, edit, goal=None, why="", doubted=()):
        self.edit, self.goal, self.why = edit, goal, why
        # Goals that fail beside a lost name: they count where the function has them unedited, too.
        self.doubted = doubted

    def is_refused(self):
        return self.goal is not None

    def settled(self, standing):
        """Returns the verdict once it is known which goals the functions have as they stand."""
        held = [it for it in self.doubted if it.shown() in standing]
        return Verdict(self.edit, held[0]) if held else self


def judge(edit, said):
    """Returns the verdict on an edit, by what a check with it said."""
    if not said.reached_contracts():
        return Verdict(edit, why=f"the check with it gave no verdict: {said.why_not()}")
    if not edit.functions:
        goals = said.goals_anywhere()
        return Verdict(edit, *goals[:1], why="" if goals else "no goal of the crate fails")
    own, gone = [], []
    for function in edit.functions:
        if not said.names_of(function):
            return Verdict(edit, why=f"the check says nothing of {function.path()}")
        goals, lost = said.goals_of(function)
        own += goals
        gone += lost
    sure = [it for it in own if it.is_sure]
    if sure:
        return Verdict(edit, sure[0])
    if gone:
        why = "a proof cites a name that it takes away: change a value, and keep the names"
        return Verdict(edit, why=f"{why} ({gone[0][:160]})", doubted=own)
    named = ", ".join(it.path() for it in edit.functions)
    return Verdict(edit, why=f"let through: no goal of {named} fails")
