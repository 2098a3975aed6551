"""Tries groups of wrong bodies, and writes and compares the records of what refused them."""
import hashlib
import os
import time
from concurrent.futures import ThreadPoolExecutor, as_completed

from . import toolchain
from .edits import edits_of, sources_of, texts_of
from .failure import Failure
from .groups import groups_of, texts_with
from .record import Record, Tree, record_of, why_stale
from .verdicts import Verdict, judge


class Crate:
    """A crate with wrong bodies, and how they are grouped."""

    def __init__(self, tree, name):
        self.tree, self.name = tree, name
        self.texts = texts_of(tree.root, name)
        self.sources = sources_of(self.texts)
        self.edits = edits_of(tree.root, name)
        for edit in self.edits:
            edit.look(self.texts, self.sources)

    def groups(self, edits=None):
        return groups_of(self.edits if edits is None else edits, self.sources)

    def tried_before(self, digest, identity):
        """Returns what the record says of edits that are as they were tried, and which of them
        were tried on other sources.

        It has to be of these sources and of this toolchain.
        """
        found, _ = record_of(self.tree.root, self.name)
        if not found or found.sources != digest or found.toolchain != identity:
            return {}, set()
        digests = {it.name: it.digest for it in self.edits}
        same = {it: words for it, words in found.tried.items() if words[0] == digests.get(it)}
        return same, found.carried & same.keys()


def only_names(edits):
    """Returns what a check of these edits is limited to; nothing where one is of no body.

    These are their functions, and the modules of a trait's methods.
    """
    if not all(it.functions for it in edits):
        return []
    functions = [function for edit in edits for function in edit.functions]
    found = {"::".join(it.module) if it.trait else it.path() for it in functions}
    return [] if "" in found else sorted(found)


def try_group(tools, crate, edits, seed=None):
    """Returns the verdicts on a group of edits, each that isn't refused tried once more alone."""
    texts, why = texts_with(edits, crate.texts)
    verdicts = []
    if not why:
        said = tools.try_texts(crate.name, texts, only_names(edits), seed)
        verdicts = settled(tools, crate, [judge(it, said) for it in edits], seed)
    if len(edits) == 1:
        return verdicts or [Verdict(edits[0], why=why)]
    held = {it.edit.name: it for it in verdicts if it.is_refused()}
    return [held.get(it.name) or try_group(tools, crate, [it], seed)[0] for it in edits]


def settled(tools, crate, verdicts, seed):
    """Returns the verdicts once the goals that fail beside a lost name are looked up.

    They count where the functions have them as they stand.
    """
    doubted = [function for it in verdicts if it.doubted for function in it.edit.functions]
    if not doubted:
        return verdicts
    standing = tools.goals_of(crate.name, doubted, seed)
    return [it.settled(standing) for it in verdicts]


def try_groups(tools, crate, groups, lanes):
    """Tries groups side by side, and gives what each came to as it ends."""
    tools.build_below(crate.name, begins=True)
    only = only_names([edit for group in groups for edit in group])
    with tools.seed(crate.name, only) as seed, ThreadPoolExecutor(lanes) as pool:
        try:
            begun = [pool.submit(try_group, tools, crate, it, seed) for it in groups]
            for ended in as_completed(begun):
                yield ended.result()
        except BaseException:
            pool.shutdown(wait=False, cancel_futures=True)
            tools.stop()
            raise


def tell(crate, verdict):
    """Says what the try of an edit came to."""
    is_refused = verdict.is_refused()
    said = f"refused by {verdict.goal.shown()}" if is_refused else f"NOT REFUSED: {verdict.why}"
    print(f"{crate}/{verdict.edit.name}: {said}", flush=True)


def try_crate(tools, crate, names, anew, lanes):
    """Tries a crate's edits, and returns how many aren't refused.

    They are those named, or else those that aren't as they were tried last, or all. What is
    refused is written as each group ends.
    """
    began, failed = time.monotonic(), 0
    digest, identity = crate.tree.digest(crate.name), toolchain.version()
    tried = {} if anew else crate.tried_before(digest, identity)[0]
    edits = [it for it in crate.edits if it.name in names or not names and it.name not in tried]
    groups = crate.groups(edits)
    for verdicts in try_groups(tools, crate, groups, lanes) if edits else [[]]:
        for it in verdicts:
            tell(crate.name, it)
        failed += sum(not it.is_refused() for it in verdicts)
        if not crate.tree.is_still(crate.name, digest):
            raise Failure(f"{crate.name} or a crate below it was changed meanwhile: try once more")
        keep(crate, digest, identity, verdicts)
    if edits:
        took = f"{len(groups)} checks, {round(time.monotonic() - began)} s"
        print(f"{crate.name}: {len(edits)} wrong bodies in {took}", flush=True)
    return failed


def keep(crate, digest, identity, verdicts):
    """Writes what some edits came to into the record, beside what it says of others by now."""
    tried, carried = crate.tried_before(digest, identity)
    for it in verdicts:
        tried.pop(it.edit.name, None)
        carried.discard(it.edit.name)
        if it.is_refused():
            tried[it.edit.name] = [it.edit.digest, it.goal.function, it.goal.name]
    Record(crate.name, identity, digest, tried, carried).write(crate.tree.root)


def try_all(root, words, anew, lanes):
    """Tries the wrong bodies of the crates named, or of all, or single ones."""
    tree = Tree(root)
    every = tree.crates_with_edits()
    wanted = {}
    for word in words:
        name, _, edit = word.partition("/")
        if name not in every:
            raise Failure(f"wrong/ has no wrong bodies of {name}: it has {' '.join(every)}")
        wanted.setdefault(name, []).append(edit)
    crates = [Crate(tree, it) for it in every if not words or it in wanted]
    for crate in crates:
        known = {"", *(it.name for it in crate.edits)}
        lacking = [it for it in wanted.get(crate.name, []) if it not in known]
        if lacking:
            raise Failure(f"there is no wrong/{crate.name}/{lacking[0]}.edit")
        if not os.access(f"{root}/wrong/{crate.name}", os.W_OK):
            raise Failure(f"wrong/{crate.name} can't be written to")
    tools, failed = toolchain.Toolchain(root, 1), 0
    for crate in crates:
        names = wanted.get(crate.name, [])
        failed += try_crate(tools, crate, [] if "" in names else names, anew, lanes)
    print(f"wrong bodies that aren't refused: {failed}")
    return 1 if failed else 0


def tell_stale(root):
    """Says which crates' wrong bodies aren't as they were tried, and returns the status."""
    tree, identity, stale, carried = Tree(root), toolchain.version(), [], 0
    for name in tree.crates_with_edits():
        why = why_stale(tree, name, edits_of(root, name), identity)
        if why:
            stale.append(name)
            print(f"wrong/{name}: {why}")
        else:
            carried += len(record_of(root, name)[0].carried)
    if carried:
        print(f"tried on other sources, and carried over: {carried}")
    if stale:
        print(f"try them anew: ./wrong-bodies {' '.join(stale)}")
    return 1 if stale else 0


def sampled(crates):
    """Returns the crate and the group that the records choose, each edit as likely as another."""
    texts = [record_of(it.tree.root, it.name)[0].text() for it in crates]
    number = int(hashlib.sha256("".join(texts).encode()).hexdigest(), 16)
    every = [(crate, edit) for crate in crates for edit in crate.edits]
    crate, edit = every[number % len(every)]
    return crate, next(it for it in crate.groups() if edit in it)


def try_sample(root, jobs):
    """Tries one group anew, and compares what refuses its edits with what the record says."""
    if tell_stale(root):
        return 1
    tree = Tree(root)
    crates = [Crate(tree, name) for name in tree.crates_with_edits()]
    if not any(it.edits for it in crates):
        return 0
    crate, group = sampled(crates)
    print(f"{crate.name}: trying anew {' '.join(it.name for it in group)}", flush=True)
    tools = toolchain.Toolchain(root, jobs)
    tools.build_below(crate.name, begins=False)
    written, differ = record_of(root, crate.name)[0].tried, 0
    for verdict in try_group(tools, crate, group):
        tell(crate.name, verdict)
        wanted = written[verdict.edit.name][1:]
        found = [verdict.goal.function, verdict.goal.name] if verdict.is_refused() else []
        if found != wanted:
            differ += 1
            print(f"wrong/{crate.name}/tried has another goal: {' '.join(wanted)}")
    return 1 if differ else 0


def tell_groups(root):
    """Prints the groups, one a line."""
    tree = Tree(root)
    for name in tree.crates_with_edits():
        for group in Crate(tree, name).groups():
            print(f"{name}: {' '.join(it.name for it in group)}")
    return 0
