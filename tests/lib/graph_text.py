"""The graph that a text for Graphviz draws, as asm-explore writes it: its form is asked for to the letter."""
import re
from typing import NamedTuple

HEAD = re.compile(r'digraph "([A-Za-z_][A-Za-z0-9_]*)" \{')
QUOTED = r'((?:[^"\\\n]|\\["\\n])*)'
NODE = re.compile(rf'  s(\d+) \[label="{QUOTED}"(, peripheries=2)?(, color=red, fontcolor=red)?(, style=filled, fillcolor=lightgrey|, style=dashed)?\];')
FAULT = re.compile(r"  (clash|outside|exhausted) \[shape=octagon, color=red, fontcolor=red\];")
EDGE = re.compile(rf'  s(\d+) -> (?:s(\d+)|(clash|outside|exhausted)) \[label="{QUOTED}"(, color=red, fontcolor=red)?\];')
CHOICE = re.compile(r"([A-Za-z_]\w* = -?\w+(, [A-Za-z_]\w* = -?\w+)*: )?[A-Za-z_]\w* = -?\w+")
CONTENT = re.compile(r"[A-Za-z_]\w*(?:\((?:-?\w+, )*-?\w+\))? = -?\w+")

# So many locations of a state are shown.
MOST_LINES = 12


class Node(NamedTuple):
    # Its locations with what they hold, a line for each, and perhaps `..` or what is said of its outcomes.
    lines: list
    is_first: bool
    is_red: bool
    is_quiet: bool
    is_dashed: bool


class Edge(NamedTuple):
    # The number of a node.
    start: int
    # The number of a node, or the name of a fault.
    end: object
    # Each a variable and the candidate that it takes, perhaps behind the elements of the foralls around it.
    choices: list
    is_red: bool


class Graph(NamedTuple):
    name: str
    nodes: list
    faults: list
    edges: list


def node_of(found, number):
    if int(found[1]) != number:
        raise ValueError(f"node {found[1]} in place of {number}")
    first, *lines = found[2].split("\\n")
    if first != found[1]:
        raise ValueError(f"node {number} is called {first}")
    shown = [line for line in lines if line not in ("..", "too many outcomes")]
    for line in shown:
        if not CONTENT.fullmatch(line):
            raise ValueError(f"node {number}: {line!r}")
    if len(shown) > MOST_LINES or ".." in lines and len(shown) != MOST_LINES:
        raise ValueError(f"node {number}: {len(shown)} lines")
    style = found[5] or ""
    return Node(lines, bool(found[3]), bool(found[4]), "filled" in style, "dashed" in style)


def edge_of(found):
    choices = found[4].split("\\n") if found[4] else []
    for choice in choices:
        if not CHOICE.fullmatch(choice):
            raise ValueError(f"choice {choice!r}")
    return Edge(int(found[1]), found[3] or int(found[2]), choices, bool(found[5]))


def in_order(lines, form, kind):
    """The lines of the form that stand first, taken away from the lines."""
    found = []
    while lines and form.fullmatch(lines[0]):
        found.append(kind(form.fullmatch(lines.pop(0)), len(found)))
    return found


def parsed(text):
    """The graph of a text. An error says where it has another form, or names what it doesn't have."""
    lines = text.split("\n")
    head = HEAD.fullmatch(lines.pop(0))
    if not head or lines[:1] != ["  node [shape=box];"] or lines[-2:] != ["}", ""]:
        raise ValueError("the first lines or the last one")
    lines = lines[1:-2]
    nodes = in_order(lines, NODE, node_of)
    faults = in_order(lines, FAULT, lambda found, _: found[1])
    edges = in_order(lines, EDGE, lambda found, _: edge_of(found))
    if lines:
        raise ValueError(f"line {lines[0]!r}")
    graph = Graph(head[1], nodes, faults, edges)
    if not nodes or [n for n, node in enumerate(nodes) if node.is_first] != [0]:
        raise ValueError("the first node")
    for edge in edges:
        if edge.start >= len(nodes) or (edge.end >= len(nodes) if isinstance(edge.end, int) else edge.end not in faults):
            raise ValueError(f"edge {edge}")
    if [edge.start for edge in edges] != sorted(edge.start for edge in edges):
        raise ValueError("the order of edges")
    return graph


def red_run(graph):
    """The edges that are red, as a run takes them from the first node on; an error if it doesn't take them all."""
    red = {edge.start: edge for edge in graph.edges if edge.is_red}
    if len(red) != sum(edge.is_red for edge in graph.edges):
        raise ValueError("two red edges from one node")
    run, node = [], 0
    while node in red:
        run.append(red.pop(node))
        node = run[-1].end
    if red:
        raise ValueError(f"{len(red)} red edges beside the run")
    return run


def widest(graph):
    """The most edges from a node."""
    counts = [0] * len(graph.nodes)
    for edge in graph.edges:
        counts[edge.start] += 1
    return max(counts)


def depth(graph):
    """The greatest number of steps that lead to a node. Each is to be found breadth first, in the order of the numbers."""
    depths = [0]
    for edge in graph.edges:
        if isinstance(edge.end, int) and edge.end >= len(depths):
            if edge.end > len(depths):
                raise ValueError(f"node {edge.end} before {len(depths)}")
            depths.append(depths[edge.start] + 1)
    if len(depths) != len(graph.nodes):
        raise ValueError("nodes that no edge leads to")
    return max(depths)
