"""Takes over what the records of an earlier commit say, without a trial.

What refuses a wrong body depends on the function that it changes, on the contracts of those that
this calls, and on definitions. If the function is as it was, with the edit and without, and
tests/compare_contracts finds the contracts and definitions of both commits alike, then so is the
verdict. The record names each wrong body that it has in this way.
"""
import contextlib
import os
import subprocess
import tempfile

from . import toolchain
from .edits import edits_of
from .failure import Failure
from .record import Record, Tree, record_of, why_stale
from .trying import Crate

FOLDERS = ("crates", "wrong", "crates.txt", "HANDLES")


@contextlib.contextmanager
def tree_at(root, commit):
    """Gives a folder with the crates of a commit and their records."""
    with tempfile.TemporaryDirectory() as folder:
        command = ["git", "-C", root, "archive", f"--output={folder}/tar", commit, *FOLDERS]
        if subprocess.run(command, check=False).returncode:
            raise Failure(f"{commit} is no commit that has wrong bodies")
        subprocess.run(["tar", "xf", f"{folder}/tar", "-C", folder], check=True)
        yield Tree(folder)


def bodies_of(edit):
    """Returns the functions that an edit changes, each with its tokens before and after."""
    return {it.path(): [str(token) for token in both] for it, both in edit.bodies.items()}


def is_same(crate, edit, other_crate, other):
    """Returns whether two wrong bodies change the same functions in the same way.

    Of those that change anything else, the whole files have to be the same, and the edits.
    """
    if edit.functions or other.functions:
        return bodies_of(edit) == bodies_of(other)
    files = {file for file, _, _ in (*edit.pairs, *other.pairs)}
    is_as_before = all(crate.texts.get(it) == other_crate.texts.get(it) for it in files)
    return edit.pairs == other.pairs and is_as_before


def goal_now(crate, function, goal):
    """Returns a goal's name as it is now.

    In a recursion across modules it begins with those that are below the folder of its proof.
    """
    found = [it for source in crate.sources.values() for it in source.functions]
    for it in (it for it in found if it.path() == function and it.shares_cycle):
        top = f"{crate.tree.root}/crates/{crate.name}/proofs"
        for at in range(len(it.module)):
            if os.path.isdir("/".join([top, *it.module[:at], f"+{it.cycle}"])):
                return "::".join([*it.module[at:], goal.rpartition("::")[2]])
    return goal


def carry_crate(tree, old_tree, name, identity):
    """Takes over what a crate's record said, and returns which wrong bodies are left to try."""
    crate = Crate(tree, name)
    if name not in old_tree.crates_with_edits():
        return [it.name for it in crate.edits]
    record, why = record_of(old_tree.root, name)
    if not record or record.toolchain != identity or record.sources != old_tree.digest(name):
        raise Failure(f"wrong/{name}: no record there holds: {why or 'it is of other sources'}")
    old_crate = Crate(old_tree, name)
    before = {it.name: it for it in old_crate.edits}
    same = [
        it
        for it in crate.edits
        if it.name in before and it.name in record.tried
        and is_same(crate, it, old_crate, before[it.name])
    ]
    tried = {}
    for it in same:
        function, goal = record.tried[it.name][1:]
        tried[it.name] = [it.digest, function, goal_now(crate, function, goal)]
    digest = tree.digest(name)
    # What was tried on these very sources wasn't carried over.
    carried = record.carried & tried.keys() if record.sources == digest else tried
    Record(name, identity, digest, tried, carried).write(tree.root)
    return [it.name for it in crate.edits if it.name not in tried]


def carry_over(root, commit):
    """Takes over the records of a commit, for the crates whose own are stale."""
    tree, identity = Tree(root), toolchain.version()
    with tree_at(root, commit) as old_tree:
        for name in tree.crates_with_edits():
            if why_stale(tree, name, edits_of(root, name), identity):
                left = carry_crate(tree, old_tree, name, identity)
                print(f"{name}: to be tried: {' '.join(left) or 'none'}", flush=True)
    return 0
