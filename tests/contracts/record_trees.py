"""A tree with clauses that stand several times, and one where records have them: the self-test."""

RT, ANTT, OTHER = "src/steps.rt", "specs/Steps.antt", "specs/Pools.antt"
HEAD = """ghost use Rattle.std.specs.Prelude.{◌≡◌, ◌<◌, ◌+◌, ℕ, IfOk, IfErr, IfSome, length};
"""
DEFINITIONS = """-- Steps.
use Rattle.std.specs.Prelude.{◌≡◌, ◌<◌, ◌+◌, ℕ, [], List, Result, IfOk, IfErr, IfSome, length}
use Rattle.a.specs.declared.error.Error.TheVariants as error
pub size : List ℕ → ℕ
size items = length items
module _ {T : Type 0} (takes : T → Type 0) where
  module _ (n : ℕ) where
    pub IsRun : ℕ → List ℕ → Type 0
    IsRun m items = (length items ≡ n) × (n < m)
"""
PARTS = {
    RT: HEAD
    + """ghost use Rattle.a.specs.Steps.{IsRun, size};
ghost use Rattle.a.specs.declared.error.Error.TheVariants.{Full, Memory};
pub fn run<J: Job, H: Hand>(job: &J, n: usize, most: usize, out: &mut List) -> Found
    requires room { n < most }
    requires one { 0 < n }
    requires steps { (k : ℕ) → k < most → n < k + size out.old }
    ensures done { IfOk result (λ items. IsRun J.takes (n + 1) most items) }
    ensures memory { IfErr result (λ e. e ≡ Memory → out.new ≡ out.old) }
    ensures full { (n ≡ most) → result ≡ Full }
    ensures { n < most }
    ensures grows { (k : ℕ) → size out.new k ≡ (if k < n then size out.old k else k + n) }
    ensures each { (before : H) × (after : H) × J.takes before after }
{ loop {} }
fn run_on<J: Job, H: Hand>(job: &J, k: usize, out: &mut List) -> Found
    requires room { k < 8 }
    requires steps { (j : ℕ) → j < 8 → k < j + size out.old }
    ensures len { let w = size out.old in IfOk result (λ items. (length items ≡ w) × (w < k)) }
    ensures fits { IfOk result (λ items. J.takes (size items)) }
    ensures { J.takes k }
{ loop {} }
pub fn pool<J: Job>(job: &J, n: usize) -> Option<Result<Pool, Error>>
    ensures outs { IfSome result (λ ended. IfOk ended (λ pool. size pool.outs ≡ n)) }
    ensures hands { IfSome result (λ ended. IfOk ended (λ pool. J.takes pool.hands.items n)) }
{ loop {} }
""",
    ANTT: DEFINITIONS,
    OTHER: "-- Pools.\n",
}
WHOLE = {
    RT: HEAD
    + """ghost use Rattle.a.specs.Steps.{CanRun, Runs, RunsOn, size};
ghost use Rattle.a.specs.Pools.{Works};
pub fn run<J: Job, H: Hand>(job: &J, n: usize, most: usize, out: &mut List) -> Found
    requires ready { CanRun n most out.old }
    requires one { 0 < n }
    ensures {
        Runs J.takes most (n + 1) out.old out.new
            (λ k. if k < n then size out.old k else k + n) (n ≡ most) result }
    ensures { n < most }
{ loop {} }
fn run_on<J: Job, H: Hand>(job: &J, k: usize, out: &mut List) -> Found
    requires ready { CanRun k 8 out.old }
    ensures ran {
        let w = size out.old in IfOk result (λ items. RunsOn J.takes (λ m. m < k) w items) }
    ensures { J.takes k }
{ loop {} }
pub fn pool<J: Job>(job: &J, n: usize) -> Option<Result<Pool, Error>>
    ensures { IfSome result (λ ended. IfOk ended (Works J.takes n)) }
{ loop {} }
""",
    ANTT: DEFINITIONS
    + """
  pub record Runs (most count : ℕ) (old new : List ℕ) (changed : ℕ → ℕ) (is_full : Type 0)
      (result : Result (List ℕ) Error) : Type 0 where
    pub done : IfOk result (λ items. IsRun count most items)
    pub memory : IfErr result (λ e. e ≡ error.Memory → new ≡ old)
    pub full : is_full → result ≡ error.Full
    pub grows : (k : ℕ) → size new k ≡ changed k
    -- each
    pub each : (before : T) × (after : T) × takes before after

  pub record RunsOn (is_small : ℕ → Type 0) (w : ℕ) (found : List ℕ) : Type 0 where
    pub len : (length found ≡ w) × is_small w
    pub fits : takes (size found)
pub record CanRun (n limit : ℕ) (items : List ℕ) : Type 0 where
  pub room : n < limit
  pub steps : (k : ℕ) → k < limit → n < k + size items
""",
    OTHER: """-- Pools.
use Rattle.std.specs.Prelude.{◌≡◌, ℕ}
use Rattle.a.specs.Steps.{size}
module _ {T : Type 0} (takes : T → Type 0) where
  pub record Works (n : ℕ) (pool : Pool) : Type 0 where
    pub outs : size pool.outs ≡ n
    pub hands : takes pool.hands.items n
""",
}
# How many records are new, and how many clauses are their fields.
RECORDS, FIELDS = 4, 13
# Changes of WHOLE that have no meaning.
SAME = [
    (RT, "items. RunsOn J.takes (λ m. m < k) w items", "ls. RunsOn J.takes (λ j. (j < k)) w ls"),
    (RT, "(λ items. RunsOn J.takes (λ m. m < k) w items)", "(RunsOn J.takes (λ m. m < k) w)"),
    (RT, "(Works J.takes n)", "(λ it. Works J.takes n it)"),
    (RT, "{ CanRun n most out.old", "{ let least = n in CanRun least most (out.old)"),
    (ANTT, "k < limit → n < k + size items", "k < limit → n < k + (size items)"),
    (ANTT, "(k : ℕ) → k < limit → n < k", "(j : ℕ) → j < limit → n < j"),
    (ANTT, "record RunsOn (is_small", "record RunsOn {U : Type 0} (is_small"),
    (OTHER, "size pool.outs ≡ n", "(size pool.outs ≡ n)"),
]
# Changes of WHOLE that are to be found: of a field, of what is applied, and of other clauses.
FOUND = [
    (ANTT, "error.Memory", "error.Full"),
    (ANTT, "declared.error", "declared.wrong"),
    (ANTT, "pub done : IfOk result", "pub done : IfErr result"),
    (ANTT, "IsRun count most items", "IsRun most count items"),
    (ANTT, "size new k ≡", "size old k ≡"),
    (ANTT, "(length found ≡ w) × is_small w", "length found ≡ (w × is_small w)"),
    (ANTT, "takes (size found)", "takes size found"),
    (ANTT, "    pub full : is_full → result ≡ error.Full\n", ""),
    (ANTT, "    -- each\n", "    pub more : count ≡ most\n"),
    (ANTT, "pub memory", "pub refused"),
    (ANTT, "pub fits", "fits"),
    (OTHER, "(takes : T → Type 0)", "(takes : T → Type 0) (n : ℕ)"),
    (ANTT, "pub len : (length found ≡ w) × is_small w\n", "pub len : length found ≡ w\n"),
    (ANTT, "pub room : n < limit\n", ""),
    (ANTT, "pub room : n < limit", "pub room : k < limit"),
    (ANTT, "→ new ≡ old)", "→ done)"),
    (ANTT, "CanRun (n limit : ℕ)", "CanRun (limit n : ℕ)"),
    (ANTT, "CanRun (n limit : ℕ)", "CanRun {limit : ℕ} (n : ℕ)"),
    (OTHER, "record Works (n : ℕ) (pool : Pool)", "record Works (pool : Pool) (n : ℕ)"),
    (OTHER, "specs.Steps.{size}", "specs.Others.{size}"),
    (RT, "out.old out.new\n", "out.new out.old\n"),
    (RT, "most (n + 1)", "(n + 1) most"),
    (RT, "(n + 1) out", "n + 1 out"),
    (RT, "(n ≡ most) result", "(most ≡ n) result"),
    (RT, "(n ≡ most) result", "result"),
    (RT, "(λ k. if k < n", "(λ k. if n < k"),
    (RT, "(λ m. m < k) w", "(λ m. k < m) w"),
    (RT, "let w = size out.old", "let w = size out.new"),
    (RT, "Works J.takes n", "Works J.gives n"),
    (RT, "IfOk ended (Works", "IfErr ended (Works"),
    (RT, "IfSome result (λ ended", "IfBoth result (λ ended"),
    (RT, "requires ready { CanRun n", "ensures ready { CanRun n"),
    (RT, "ensures {\n        Runs", "requires {\n        Runs"),
    (RT, "requires ready { CanRun k 8 out.old }", ""),
    (RT, "ensures ran", "ensures len { k ≡ k }\n    ensures ran"),
    (RT, "ensures { n < most }", ""),
    (RT, "requires one { 0 < n }", ""),
    (RT, "specs.Pools.{Works}", "specs.Others.{Works}"),
]
# Several changes of WHOLE, which are to be found together: labels and fields are exchanged.
FOUND_TOGETHER = [
    [(ANTT, "len :", "width :"), (ANTT, "fits :", "len :"), (ANTT, "width :", "fits :")],
    [
        (ANTT, "  pub room : n < limit\n", ""),
        (ANTT, "n < k + size items\n", "n < k + size items\n  pub room : n < limit\n"),
    ],
]
# Changes of PARTS that are to be found: a name is captured, an implicit argument is two things, and
# a clause says something else than the field.
FOUND_BEFORE = [
    (RT, "(j : ℕ) → j < 8 → k < j + size", "(k : ℕ) → k < 8 → k < k + size"),
    (RT, "(after : H)", "(after : J)"),
    (RT, "(n ≡ most) → result", "(most ≡ n) → result"),
    (RT, "(if k < n then size out.old k else k + n)", "if k < n then size out.old k else k + n"),
]
# The library exports a name of one file from another, which a map says.
EXPORTED = [
    (ANTT, "IfSome, length}", "IfSome}\nuse Rattle.std.specs.List.{length}"),
    (RT, "◌+◌, ℕ, IfOk, IfErr, IfSome, length}", "◌+◌, ℕ, IfOk, IfErr, IfSome}"),
]
EXPORTS = [[("std", "export", "Prelude.length", "List.length")]]
