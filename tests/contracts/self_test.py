"""Compares a small tree with changed ones.

What changes no meaning is let through, and all else is found.
"""
import pathlib
import tempfile

from . import record_trees
from .comparison import Comparison, Side
from .maps import Names, exports_of

RT, ANTT = "src/tally.rt", "specs/Sizes.antt"
TREE = {
    RT: """//! Counts.
ghost use Rattle.a.specs.Sizes.{IsSmall, Limits, size, half, ◌⊑◌};
use crate::other::Thing;
pub struct Tally { count: usize, most: usize }
pub enum Kind { One, Two(usize) }
impl Tally {
    ghost invariant = { λ t. IsSmall t.count };
    /// More.
    #[inline]
    pub fn add(&mut self, n: usize, more: usize) -> bool
        requires small { IsSmall n }
        requires { half n ≡ more }
        ensures count { (k : ℕ) → size self.new.count ≡ n + k } // said
        ensures { result ≡ true }
        ensures { n ⊑ more }
    { let size = n; self.count += size; true }
}
pub trait Play {
    ghost turns: { ℕ };
    fn play(&self) -> u8 ensures { Self.turns ≡ 0 };
}
impl Play for Tally {
    ghost turns = { 0 };
    fn play(&self) -> u8 { 0 }
}
fn hidden(t: &Thing) -> [u8; 4] ensures { IsSmall t.now } { loop {} }
""",
    ANTT: """-- Sizes.
use Rattle.std.specs.Prelude.{◌≡◌, ℕ}
mutual
  pub data Size : Type 0 where
    Small : Size
    Great : ℕ → Size
abbrev pub size : ℕ → ℕ
size n = n
abbrev pub half : ℕ → ℕ
half n = size n
pub ◌⊑◌ : ℕ → ℕ → Type 0
m ⊑ n = size m ≡ half n
-- small
pub record IsSmall (n : ℕ) : Type 0 where
  pub bound : size n ≡ n
  pub limit : half n ≡ n
pub record Limits : Type 0 where
  pub upper : ℕ
bound_of : (n : ℕ) (s : IsSmall n) → size n ≡ n
bound_of n s = s.bound
""",
}
# Changes of no meaning: a file, what was in it, and what is there now.
SAME = [
    (RT, "{IsSmall, Limits, size, half, ◌⊑◌}", "{◌⊑◌, size, half, IsSmall}"),
    (RT, " // said", "\n"),
    (RT, "/// More.", "/// Less."),
    (RT, "self.count += size", "self.count += 1"),
    (RT, "requires small { IsSmall n }", "requires small {\n IsSmall\n n }"),
    (ANTT, "-- small\n", "\n"),
]
# Changes of which each is to be found.
CHANGED = [
    (RT, "size self.new.count", "self.new.count"),
    (RT, "size self.new.count", "half self.new.count"),
    (RT, "self.new.count", "self.old.count"),
    (RT, "self.new.count", "self.new.most"),
    (RT, "ensures { n ⊑ more }", "ensures { more ⊑ n }"),
    (RT, "requires small { IsSmall n }", ""),
    (RT, "requires small", "requires more { n ≡ n }\n requires small"),
    (RT, "requires small", "requires little"),
    (RT, "requires { half n ≡ more }", "ensures { half n ≡ more }"),
    (RT, "ensures { result ≡ true }", ""),
    (RT, "ensures { result ≡ true }\n        ensures { n ⊑ more }", "ensures { n ⊑ more }"),
    (RT, "n: usize, more: usize", "more: usize, n: usize"),
    (RT, "n: usize", "n: u32"),
    (RT, "pub fn", "fn"),
    (RT, "-> bool", "-> u8"),
    (RT, "IsSmall t.count", "IsSmall t.most"),
    (RT, "ghost invariant = { λ t. IsSmall t.count };", ""),
    (RT, "count: usize", "count: u8"),
    (RT, "One, Two", "Two, One"),
    (RT, "crate::other", "crate::another"),
    (RT, "Sizes.{IsSmall", "Lengths.{IsSmall"),
    (RT, "[u8; 4]", "[u8; 5]"),
    (RT, "ghost turns = { 0 }", "ghost turns = { 1 }"),
    (RT, "ghost turns: { ℕ };", ""),
    (RT, "Self.turns ≡ 0", "Self.turns ≡ 1"),
    (RT, "impl Play for Tally", "impl Play for Kind"),
    (ANTT, "Prelude.{◌≡◌, ℕ}", "Others.{◌≡◌, ℕ}"),
    (ANTT, "Great :", "Large :"),
    (ANTT, "Great : ℕ → Size", "Great : Size"),
    (ANTT, "size n = n", "size n = 0"),
    (ANTT, "half n = size n", "half n = half n"),
    (ANTT, "pub bound : size n", "pub bounds : size n"),
    (ANTT, "s.bound", "s.limit"),
    (ANTT, "abbrev pub half : ℕ → ℕ\nhalf n = size n\n", ""),
    (ANTT, "-- small\n", "pub more : ℕ\nmore = 0\n"),
    (ANTT, "abbrev pub half", "pub half"),
]
# Two maps, and what they make of the tree.
MAPS = [
    [
        ("a", "method", "tally::Tally::add", "push"),
        ("a", "definition", "Sizes.size", "length"),
        ("a", "definition", "Sizes.◌⊑◌", "◌≼◌"),
        ("a", "definition", "Sizes.IsSmall.bound", "least"),
        ("a", "type", "tally::Tally", "Total"),
        ("a", "variable", "tally::Tally::add::n", "step"),
        ("a", "clause", "tally::Tally::add::small", "bounded"),
        ("a", "field", "tally::Tally::count", "sum"),
        ("a", "field", "tally::Play::turns", "rounds"),
        ("a", "variable", "specs/Sizes::s", "small"),
        ("a", "variant", "tally::Kind::One", "Single"),
        ("a", "module", "tally", "totals"),
        ("a", "definition-file", "Sizes", "Lengths"),
    ],
    [
        ("a", "definition-file", "Lengths", "code/Lengths"),
        ("a", "module", "totals", "counts/totals"),
        ("a", "variable", "totals::Total::push::step", "growth"),
        ("a", "field", "totals::Total::sum", "total"),
    ],
]
RENAMED = [
    (RT, "fn add", "fn push"),
    (RT, "size, half, ◌⊑◌}", "length, half, ◌≼◌}"),
    (RT, "→ size self", "→ length self"),
    (RT, "struct Tally", "struct Total"),
    (RT, "impl Tally", "impl Total"),
    (RT, "for Tally", "for Total"),
    (RT, "specs.Sizes", "specs.code.Lengths"),
    (RT, "self, n: usize", "self, growth: usize"),
    (RT, "≡ n + k", "≡ growth + k"),
    (RT, "IsSmall n", "IsSmall growth"),
    (RT, "half n ≡", "half growth ≡"),
    (RT, "{ n ⊑ more", "{ growth ≼ more"),
    (RT, "requires small", "requires bounded"),
    (RT, "{ count: usize", "{ total: usize"),
    (RT, "new.count", "new.total"),
    (RT, "t.count", "t.total"),
    (RT, "{ One", "{ Single"),
    (ANTT, "pub size : ℕ → ℕ\nsize n", "pub length : ℕ → ℕ\nlength n"),
    (ANTT, "half n = size n", "half n = length n"),
    (ANTT, "pub ◌⊑◌", "pub ◌≼◌"),
    (ANTT, "m ⊑ n = size m", "m ≼ n = length m"),
    (ANTT, "pub bound : size n", "pub least : length n"),
    (ANTT, "→ size n ≡ n\nbound_of", "→ length n ≡ n\nbound_of"),
    (ANTT, "(s : IsSmall n)", "(small : IsSmall n)"),
    (ANTT, "bound_of n s = s.bound", "bound_of n small = small.least"),
    (RT, "ghost turns:", "ghost rounds:"),
    (RT, "Self.turns", "Self.rounds"),
    (RT, "ghost turns =", "ghost rounds ="),
    (RT, None, "src/counts/totals.rt"),
    (ANTT, None, "specs/code/Lengths.antt"),
]
# The names of two definitions are exchanged, by a map that says so.
EXCHANGE = [[("a", "definition", "Sizes.size", "half"), ("a", "definition", "Sizes.half", "size")]]
EXCHANGED = [
    (ANTT, "pub size : ℕ → ℕ\nsize n", "pub other : ℕ → ℕ\nother n"),
    (ANTT, "pub half : ℕ → ℕ\nhalf n = size n", "pub size : ℕ → ℕ\nsize n = half n"),
    (ANTT, "pub other : ℕ → ℕ\nother n", "pub half : ℕ → ℕ\nhalf n"),
    (ANTT, "m ⊑ n = size m ≡ half n", "m ⊑ n = half m ≡ size n"),
    (ANTT, "pub bound : size n", "pub bound : half n"),
    (ANTT, "pub limit : half n", "pub limit : size n"),
    (ANTT, "→ size n ≡ n\nbound_of", "→ half n ≡ n\nbound_of"),
    (RT, "{ half n ≡", "{ size n ≡"),
    (RT, "→ size self", "→ half self"),
]
# The trees that were read.
SIDES = {}
# The fields of a struct are exchanged, and what a clause says of them isn't.
FIELDS = [
    [("a", "field", "tally::Tally::count", "most"), ("a", "field", "tally::Tally::most", "count")],
]
FIELDS_EXCHANGED = [
    (RT, "{ count: usize, most: usize }", "{ most: usize, count: usize }"),
    (RT, "t.count", "t.most"),
    (RT, "new.count", "new.most"),
]


def changed(texts, changes):
    """Returns the files of a tree with changes."""
    texts = dict(texts)
    for file, was, now in changes:
        if was is None:
            texts[now] = texts.pop(file)
        else:
            assert texts[file].count(was) == 1, f"{file} has {was!r} {texts[file].count(was)} times"
            texts[file] = texts[file].replace(was, now)
    return texts


def side(texts, names, exports):
    """Returns a tree of these files as it is compared; the same is read once."""
    key = (repr(texts), repr([vars(it) for it in names.steps]), repr(exports))
    if key not in SIDES:
        with tempfile.TemporaryDirectory() as folder:
            for file, text in texts.items():
                path = pathlib.Path(folder, "crates/a", file)
                path.parent.mkdir(parents=True, exist_ok=True)
                path.write_text(text, encoding="utf-8")
            SIDES[key] = Side(folder, names, exports)
    return SIDES[key]


def compared(old, new, maps=()):
    """Compares two trees."""
    exports = exports_of(maps)
    return Comparison(side(old, Names(maps), exports), side(new, Names([]), exports))


def differences(changes, maps=()):
    """Returns how much differs if the new tree has these changes."""
    return compared(TREE, changed(TREE, changes), maps).differences()


def faults():
    """Gives what isn't as it should be."""
    for name, changes, maps in (
        ("nothing", [], []),
        ("what has no meaning", SAME, []),
        ("two maps", RENAMED, MAPS),
        ("an exchange of definitions", EXCHANGED, EXCHANGE),
        ("an exchange of fields", FIELDS_EXCHANGED, FIELDS),
    ):
        if differences(changes, maps):
            yield f"{name}: it differs"
    for file, was, now in CHANGED:
        if not differences([(file, was, now)]):
            yield f"{was!r} became {now!r}: that isn't found"
    # Without a map, with a part of one, and where one place was left out.
    for maps in ([], MAPS[:1], MAPS[1:], [MAPS[1], MAPS[0]]):
        if not differences(RENAMED, maps):
            yield f"{len(maps)} of two maps: that isn't found"
    for renamed, maps, front in (
        (RENAMED, MAPS, 0),
        (EXCHANGED, EXCHANGE, 3),
        (FIELDS_EXCHANGED, FIELDS, 0),
    ):
        for left in renamed[front:]:
            rest = [it for it in renamed if it != left]
            if left[1] is not None and not differences(rest, maps):
                yield f"{left[1]!r} stayed: that isn't found"
    if not differences(EXCHANGED) or not differences(FIELDS_EXCHANGED):
        yield "an exchange without a map: that isn't found"
    # A parameter that takes the name of what a clause binds, or of another parameter.
    for name in ("k", "more", "size"):
        changes = [
            (RT, "self, n: usize", f"self, {name}: usize"),
            (RT, "IsSmall n", f"IsSmall {name}"),
            (RT, "half n ≡", f"half {name} ≡"),
            (RT, "≡ n + k", f"≡ {name} + k"),
            (RT, "{ n ⊑", f"{{ {name} ⊑"),
        ]
        if not differences(changes, [[("a", "variable", "tally::Tally::add::n", name)]]):
            yield f"n became {name}: that isn't found"
    # Another record has a field of this name, too: then it is counted.
    before = changed(TREE, [(ANTT, "pub upper", "pub bound")])
    if len(compared(before, changed(before, RENAMED), MAPS).loose) != 1:
        yield "a field whose new name depends on its type: that isn't counted"
    # Two definitions become one.
    one = [[("a", "definition", "Sizes.half", "size")]]
    if not differences([(RT, "half n ≡", "size n ≡"), (RT, "size, half,", "size,")], one):
        yield "two definitions became one: that isn't found"


def record_faults():
    """Gives what isn't as it should be with clauses that are fields of records."""
    parts, whole, records = record_trees.PARTS, record_trees.WHOLE, record_trees.RECORDS

    def is_found(old=(), new=(), maps=()):
        trees = changed(parts, old), changed(whole, new)
        return compared(*trees, maps).differences() > records

    for trees in ((parts, whole), (whole, parts)):
        found = compared(*trees)
        if found.differences() != records or found.fields != record_trees.FIELDS:
            yield f"clauses that are fields of records: {list(found.lines())}"
    for change in record_trees.SAME:
        if is_found(new=[change]):
            yield f"{change[1]!r} became {change[2]!r} in records: it differs"
    for changes in (*([it] for it in record_trees.FOUND), *record_trees.FOUND_TOGETHER):
        if not is_found(new=changes):
            yield f"{changes[0][1]!r} became {changes[0][2]!r} in records: that isn't found"
    for change in record_trees.FOUND_BEFORE:
        if not is_found(old=[change]):
            yield f"{change[1]!r} became {change[2]!r} before records: that isn't found"
    for maps in ([], record_trees.EXPORTS):
        if is_found(new=record_trees.EXPORTED, maps=maps) == bool(maps):
            yield f"an exported name with {len(maps)} maps: that isn't as it should be"


def run():
    """Tells what isn't as it should be, and returns the exit status."""
    found = [*faults(), *record_faults()]
    for line in found:
        print(f"self-test: {line}")
    if not found:
        count = len(CHANGED) + len(record_trees.FOUND)
        print(f"self-test: {count} changes are found, and all as it should be")
    return 1 if found else 0
