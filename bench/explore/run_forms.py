"""What `asm-explore show` is to answer with `--json` and with `--html`: one run of a specification as rows for programs and as a page, worked out by
the model in model.py."""
import itertools
import json
from typing import NamedTuple

from one_run import shown_place
from run_table import Broken, Table, assignments, call_of, chosen_lines, shown_value


def choices_in(run, number):
    """The choices of a step, in the order of evaluation."""
    return [choice for step, choice in run.choices if step == number]


def unmet_lines(run):
    return [f"no choose met line {line.line} of the script: {line.text}" for line in run.script.unmet()]


def status_of(run):
    return 1 if run.fault else 6 if run.script.unmet() else 0


# ---- rows for programs


def chosen_object(choice):
    """A choice; of elements with one name the innermost is shown, where the last of these stands."""
    elements = {}
    for name, value in choice.elements:
        elements.pop(name, None)
        elements[name] = str(value)
    return {"name": choice.name, "value": str(choice.candidates[choice.number]), "elements": elements}


def json_rows(run, asked):
    """The objects of the rows, and of the end."""
    table = Table(run, asked.only, asked.width)
    for number in range(run.steps + 1):
        row = {"step": number, "chosen": [chosen_object(choice) for choice in choices_in(run, number)]}
        if number < len(run.states):
            state = run.states[number]
            row["state"] = {shown_place(place): None if state[place] == "undef" else str(state[place]) for place in table.places}
        yield row
    end = {"end": run.end}
    if table.more:
        end["more"] = table.more
    if run.script.unmet():
        end["unmet"] = unmet_lines(run)
    yield end


def answered_json(run, asked):
    """What is printed of a run by `--json`, and the status."""
    return "".join(json.dumps(row, separators=(",", ":")) + "\n" for row in json_rows(run, asked)), status_of(run)


# ---- the page


class Cell(NamedTuple):
    """A cell of the page's table: its text, the words of its class, and how many columns and rows it spans."""

    text: str
    classes: frozenset = frozenset()
    columns: int = 1
    rows: int = 1


class Page(NamedTuple):
    """What a page shows: its title and heading, the lines above the table, the rows of its heads and of its body, each with the words of its class,
    and the lines below the table."""

    title: str
    heading: tuple
    above: list
    heads: list
    rows: list
    below: list


# No head stands above more columns: browsers count no further.
MOST_SPANNED = 1000


def groups_of(functions):
    """The functions of columns, one behind another, with how many columns each head of one stands above."""
    for function, same in itertools.groupby(functions):
        count = len(list(same))
        for first in range(0, count, MOST_SPANNED):
            yield function, min(MOST_SPANNED, count - first)


def firsts(functions):
    """For each column whether a head begins above it."""
    return [number == 0 for _, count in groups_of(functions) for number in range(count)]


def page_heads(table, has_chosen):
    """The rows of the heads. A function has its name above all its columns, and each column its arguments."""
    functions = [column.function for column in table.columns]
    heads = list(groups_of(functions))
    arguments = [Cell(column.arguments, frozenset(["group"] * is_first)) for column, is_first in zip(table.columns, firsts(functions))]
    rows = 2 if arguments else 1
    front = [Cell("step", frozenset(["step"]), rows=rows)] + [Cell("chosen", rows=rows)] * has_chosen
    names = [*front, *(Cell(name, frozenset(["group"]), columns=count) for name, count in heads)]
    return [names, arguments] if arguments else [names]


def page_row(run, table, number, has_chosen):
    """The cells of a row, of which those of locations have their values, be they as in the row before or not."""
    cells = [Cell(str(number), frozenset(["step"]))]
    if has_chosen:
        cells.append(Cell(" ".join(chosen_lines(choices_in(run, number)))))
    functions = [place[0] for place in table.places]
    if number >= len(run.states):
        return [*cells, *(Cell("", frozenset(["group"]), columns=count) for _, count in groups_of(functions))]
    for place, is_first in zip(table.places, firsts(functions)):
        value, classes = run.states[number][place], ["group"] * is_first
        if number > 0:
            classes.append("same" if run.states[number - 1][place] == value else "new")
        cells.append(Cell(shown_value(value), frozenset(classes)))
    return cells


def page_of(run, asked, spec="-"):
    """The page of a run, and the status."""
    table = Table(run, asked.only, asked.width)
    has_chosen = any(table.chosen)
    bad = frozenset(["bad"] if run.fault else [])
    above = [*([run.fault.because] if isinstance(run.fault, Broken) else []), call_of(run, asked.turns, spec)]
    below = [f"and {table.more} more locations change"] if table.more else []
    below += [line.removeprefix("# ") for line in assignments(run)] + unmet_lines(run)
    rows = [(page_row(run, table, number, has_chosen), bad if number == run.steps else frozenset()) for number in range(run.steps + 1)]
    title = run.end + (f" - {spec}" if spec != "-" else "")
    return Page(title, (run.end, bad), above, page_heads(table, has_chosen), rows, below), status_of(run)
