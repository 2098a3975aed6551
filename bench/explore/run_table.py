"""What `asm-explore show` is to answer: one run of a specification as a table, worked out by the model in model.py.

Each row is kept, and each cell is a text before it has a place. So a block is laid out by trying how wide it is with one column more.
"""
from typing import NamedTuple

import reader
from because import Reasons
from model import Step
from one_run import LONGEST, OneRun, shown_path, shown_place

# So many locations are columns if none is named, so many assignments are shown of a step that fails, and a line of choices has so many bytes.
MOST_COLUMNS, MOST_ASSIGNMENTS, LONGEST_LINE = 200, 100, 40


class Asked(NamedTuple):
    """What `show` is asked for, without the specification and the script."""

    steps: int = 1000
    turns: int = 1000
    always: tuple = ()
    only: tuple = ()
    width: int = 100


class UnknownName(Exception):
    """A name that is to be shown is that of no controlled function and of no location."""


class Broken(str):
    """Words for a condition that isn't true, with the line that says why."""

    def __new__(cls, words, because):
        made = super().__new__(cls, words)
        made.because = because
        return made


def broken_by(conditions):
    """What finds the first of the conditions that isn't true in a state, in words."""
    terms = [reader.term_of(condition) for condition in conditions]

    def broken_in(specification, state):
        for number, term in enumerate(terms, 1):
            value = Step(specification, 1, []).term(term, {}, state)
            if value != "true":
                return Broken(f"condition {number} is {value}", Reasons(specification, state).because(term))
        return None

    return broken_in


# ---- what is chosen in a step


def given(name, value):
    return f"{name} = {value}"


def pieces_of(choices):
    """The choices of a step, each with the elements before it, if those of the choice before are others, and the mark behind it."""
    for at, choice in enumerate(choices):
        before = choices[at - 1].elements if at > 0 else ()
        elements = ", ".join(given(*one) for one in choice.elements)
        front = f"{elements}: " if elements and choice.elements != before else ""
        mark = ""
        if at + 1 < len(choices):
            mark = "," if choices[at + 1].elements == choice.elements else ";"
        yield f"{front}{given(choice.name, choice.candidates[choice.number])}{mark}"


def chosen_lines(choices):
    """The same in lines, none of which is too long but by one choice alone."""
    lines = []
    for piece in pieces_of(choices):
        if lines and len(lines[-1]) + 1 + len(piece) <= LONGEST_LINE:
            lines[-1] += f" {piece}"
        else:
            lines.append(piece)
    return lines


# ---- columns


class Column(NamedTuple):
    """A location: its function, the head of its own, and its cell in each row that has one."""

    function: str
    arguments: str
    cells: list

    def width(self):
        return max(map(len, [self.arguments, *self.cells]))


def shown_value(value):
    return "-" if value == "undef" else str(value)


def changes(place, states):
    return any(before[place] != after[place] for before, after in zip(states, states[1:]))


def column_of(place, states):
    values = [state[place] for state in states]
    below = [shown_value(after) if after != before else "." for before, after in zip(values, values[1:])]
    return Column(place[0], ", ".join(map(str, place[1])), [shown_value(values[0]), *below])


def placed(columns):
    """These columns beside each other, each with its width. The last one of a function is made wider for the name."""
    found = []
    for at, column in enumerate(columns):
        found.append((column, column.width()))
        if at + 1 == len(columns) or columns[at + 1].function != column.function:
            widths = [width for one, width in found if one.function == column.function]
            missing = len(column.function) - sum(widths) - 2 * (len(widths) - 1)
            found[-1] = (column, widths[-1] + max(missing, 0))
    return found


class Texts(NamedTuple):
    """A column of a block: what stands in the first line of the heads, in the second, and in each row, with its width. A cell that has several
    lines is a list."""

    first: str
    second: str
    cells: list
    width: int


def written(cells, block):
    """A line with the cells of a block, where its columns begin. A cell that is wider goes on above the columns behind it."""
    line, start = "", 0
    for cell, column in zip(cells, block):
        if cell:
            line = line.ljust(start) + cell
        start += column.width + 2
    return line


def functions_above(columns):
    """The name of the function of each column that is the first one of it."""
    return [column.function if at == 0 or columns[at - 1].function != column.function else "" for at, column in enumerate(columns)]


class Table:
    """The table of a run."""

    def __init__(self, run, only, width):
        self.run, self.width = run, width
        self.chosen = [[], *(chosen_lines([one for step, one in run.choices if step == number]) for number in range(1, run.steps + 1))]
        known = [place for place in run.specification.locations() if place[1] is not None]
        names = {*run.specification.controlled, *map(shown_place, known)}
        for name in only:
            if name not in names:
                raise UnknownName(name)
        if only:
            columns = [place for place in known if place[0] in only or shown_place(place) in only]
        else:
            columns = [place for place in known if changes(place, run.states)]
        shown = columns if only else columns[:MOST_COLUMNS]
        self.more = len(columns) - len(shown)
        self.places = shown
        self.columns = [column_of(place, run.states) for place in shown]

    def front(self, is_first):
        """The columns of a block that no location has."""
        numbers = list(map(str, range(self.run.steps + 1)))
        width = max(4, len(numbers[-1]))
        found = [Texts("step".rjust(width), "", [number.rjust(width) for number in numbers], width)]
        if is_first and any(self.chosen):
            longest = max(len(line) for lines in self.chosen for line in lines)
            found.append(Texts("chosen", "", self.chosen, max(6, longest)))
        return found

    def block(self, columns, is_first):
        names = functions_above(columns)
        behind = [Texts(name, column.arguments, column.cells, width) for name, (column, width) in zip(names, placed(columns))]
        return self.front(is_first) + behind

    def is_too_wide(self, block):
        return len("# ") + sum(column.width for column in block) + 2 * (len(block) - 1) > self.width

    def blocks(self):
        """The columns of each block."""
        begun, is_first = [], True
        for column in self.columns:
            if begun and self.is_too_wide(self.block([*begun, column], is_first)):
                yield self.block(begun, is_first)
                begun, is_first = [], False
            begun.append(column)
        yield self.block(begun, is_first)

    def rows(self, block):
        """The cells of each line of a block."""
        yield [column.first for column in block]
        if any(column.second for column in block):
            yield [column.second for column in block]
        for number in range(self.run.steps + 1):
            cells = [column.cells[number] if number < len(column.cells) else "" for column in block]
            lists = [cell if isinstance(cell, list) else [cell] for cell in cells]
            for line in range(max(map(len, lists))):
                yield [cell[line] if line < len(cell) else "" for cell in lists]

    def lines(self):
        for number, block in enumerate(self.blocks()):
            if number > 0:
                yield ""
            for row in self.rows(block):
                yield written(row, block)
        if self.more:
            yield f"and {self.more} more locations change"


# ---- answers


def call_of(run, turns, spec):
    """The call of asm that makes the run, for a file with a plain name."""
    return f"asm --steps {run.steps} --script THIS" + (f" --turns {turns}" if turns != 1000 else "") + (f" {spec}" if spec != "-" else "")


def assignments(run):
    """What `clash` shows of the step that fails, up to a limit."""
    lines = run.of_clash()[0].splitlines()[1:]
    return lines[:MOST_ASSIGNMENTS] + [f"# and {len(lines) - MOST_ASSIGNMENTS} more"] * (len(lines) > MOST_ASSIGNMENTS)


def comment(line):
    return f"# {line}" if line else "#"


def comments(run, asked, spec):
    yield run.end
    if isinstance(run.fault, Broken):
        yield run.fault.because
    yield call_of(run, asked.turns, spec)
    yield from Table(run, asked.only, asked.width).lines()


def found_table(text, script, steps, turns):
    """The comments that `all` and `random` have of a run that they found, by `--table`: its table, and the assignments by which it ends."""
    asked = Asked(steps, turns)
    run = run_of(text, script, asked)
    return [*map(comment, Table(run, asked.only, asked.width).lines()), *assignments(run)]


def run_of(text, script, asked):
    return OneRun(text, script, asked.steps, asked.turns, broken_by(asked.always))


def answered(run, asked, spec="-"):
    """What is printed of a run, and the status."""
    unmet = run.script.unmet()
    lines = list(map(comment, comments(run, asked, spec)))
    lines += assignments(run)
    lines += [f"# no choose met line {line.line} of the script: {line.text}" for line in unmet]
    script = "".join(f"{step} {shown_path(choice.path)} {choice.number}\n" for step, choice in run.choices if choice.number)
    text = "".join(f"{line}\n" for line in lines) + (script if len(script) <= LONGEST else "# left out: the script\n")
    return text, 1 if run.fault else 6 if unmet else 0


def shown(text, script="", asked=Asked(), spec="-"):
    """What `show` prints of the run of a specification under a script, and its status."""
    return answered(run_of(text, script, asked), asked, spec)
