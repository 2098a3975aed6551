//! Measures what the program `sets` measures, on maps of the standard library: `peer hash` or `peer tree`. The lines of the
//! output are those of `sets`.
use std::collections::{BTreeMap, HashMap};
use std::hash::{BuildHasherDefault, Hasher};
use std::time::{Duration, Instant};

#[derive(Clone, Copy)]
#[allow(dead_code)]
enum Value {
    Undef,
    Truth(bool),
    Number(i64),
    Element(u32),
}

impl Value {
    /// The number that stands for the value in a shared word.
    fn code(self) -> u64 {
        match self {
            Value::Undef => 1,
            Value::Truth(false) => 2,
            Value::Truth(true) => 3,
            Value::Number(value) => (value + 100_000_000_000_000_004) as u64,
            Value::Element(index) => 200_000_000_000_000_005 + u64::from(index),
        }
    }
}

const ONE: Value = Value::Number(1);
const TWO: Value = Value::Number(2);

/// The least and the greatest value.
type Bounds = (Value, Value);

/// The bounds of all values that lie within the ones or the others.
fn widened(first: Bounds, second: Bounds) -> Bounds {
    let low = if second.0.code() < first.0.code() {
        second.0
    } else {
        first.0
    };
    let high = if first.1.code() < second.1.code() {
        second.1
    } else {
        first.1
    };
    (low, high)
}

/// Hashes a number by one multiplication to 128 bits, whose halves are joined.
#[derive(Default)]
struct FoldHasher(u64);

impl Hasher for FoldHasher {
    fn finish(&self) -> u64 {
        self.0
    }

    fn write(&mut self, bytes: &[u8]) {
        for byte in bytes {
            self.write_usize(usize::from(*byte));
        }
    }

    fn write_usize(&mut self, n: usize) {
        let product = u128::from(self.0 ^ n as u64 ^ 0x243f_6a88_85a3_08d3) * 0x9e37_79b9_7f4a_7c15;
        self.0 = product as u64 ^ (product >> 64) as u64;
    }
}

type Hash = HashMap<usize, Bounds, BuildHasherDefault<FoldHasher>>;
type Tree = BTreeMap<usize, Bounds>;

/// A set of updates.
trait Set: Clone + Default {
    fn len(&self) -> usize;
    fn get(&self, n: usize) -> Option<Bounds>;
    fn add(&mut self, n: usize, low: Value, high: Value);
    fn union(&mut self, other: &Self);
    fn then(&mut self, later: &Self);
    fn clear(&mut self);
    fn fire_into(&self, state: &mut [Value]);
}

macro_rules! impl_set {
    ($map:ty) => {
        impl Set for $map {
            fn len(&self) -> usize {
                <$map>::len(self)
            }

            fn get(&self, n: usize) -> Option<Bounds> {
                <$map>::get(self, &n).copied()
            }

            fn add(&mut self, n: usize, low: Value, high: Value) {
                self.entry(n)
                    .and_modify(|known| *known = widened(*known, (low, high)))
                    .or_insert((low, high));
            }

            fn union(&mut self, other: &Self) {
                for (n, (low, high)) in other {
                    self.add(*n, *low, *high);
                }
            }

            fn then(&mut self, later: &Self) {
                self.extend(later);
            }

            fn clear(&mut self) {
                <$map>::clear(self);
            }

            fn fire_into(&self, state: &mut [Value]) {
                for (n, (value, _)) in self {
                    state[*n] = *value;
                }
            }
        }
    };
}

impl_set!(Hash);
impl_set!(Tree);

/// Sets of `size` locations. So many of them are worked on at once, and that is done in so many rounds.
#[derive(Clone, Copy)]
struct Scale {
    size: usize,
    sets: usize,
    rounds: usize,
}

impl Scale {
    const fn new(size: usize, sets: usize, rounds: usize) -> Scale {
        Scale { size, sets, rounds }
    }
}

const UPDATES: usize = 262_144;
const SCALES: [Scale; 3] = [
    Scale::new(16, 64, 256),
    Scale::new(1_024, 4, 64),
    Scale::new(65_536, 1, 4),
];

/// How many later sets are made before they are merged.
const LATER: usize = 1_024;

/// How often a set is cleared.
const CLEARED: usize = 4_096;

/// How many updates the sets have together that are fired in a round.
const FIRED: usize = 1_024;

/// How many states are made.
const STATES: usize = 1_024;

/// How many locations a state has.
const LOCATIONS: usize = 16_384;

fn rising(size: usize) -> Vec<usize> {
    (0..size).collect()
}

fn falling(size: usize) -> Vec<usize> {
    (0..size).rev().collect()
}

fn scattered(first: usize, size: usize) -> Vec<usize> {
    (0..size).map(|n| first + n * 40_503 % size).collect()
}

fn set_of<S: Set>(order: &[usize], value: Value) -> S {
    let mut set = S::default();
    for n in order {
        set.add(*n, value, value);
    }
    set
}

fn sets_of<S: Set>(order: &[usize], size: usize) -> Vec<S> {
    order.chunks(size).map(|part| set_of(part, TWO)).collect()
}

fn sizes<S: Set>(sets: &[S]) -> u64 {
    sets.iter().map(|set| set.len() as u64).sum()
}

fn report(name: &str, size: usize, taken: Duration, operations: usize, sum: u64) {
    println!("{name} {size} {} {operations} {sum}", taken.as_nanos());
}

fn adding<S: Set>(name: &str, scale: Scale, order: &[usize]) {
    let mut sum = 0;
    let start = Instant::now();
    for _ in 0..scale.rounds {
        for _ in 0..scale.sets {
            let set: S = set_of(order, ONE);
            sum += set.len() as u64;
        }
    }
    report(name, scale.size, start.elapsed(), UPDATES, sum);
}

fn uniting<S: Set>(scale: Scale) {
    let size = scale.size;
    let first: S = set_of(&scattered(0, size), ONE);
    let other: S = set_of(&scattered(size / 2, size), TWO);
    let mut taken = Duration::ZERO;
    let mut sum = 0;
    for _ in 0..scale.rounds {
        let mut sets = vec![first.clone(); scale.sets];
        let start = Instant::now();
        for set in &mut sets {
            set.union(&other);
        }
        taken += start.elapsed();
        sum += sizes(&sets);
    }
    report("union", size, taken, UPDATES, sum);
}

fn merging<S: Set>(name: &str, scale: Scale, order: &[usize]) {
    let first: S = set_of(&rising(scale.size), ONE);
    let mut taken = Duration::ZERO;
    let mut sum = 0;
    for _ in 0..scale.rounds {
        let mut sets = vec![first.clone(); scale.sets];
        for part in order.chunks(LATER) {
            let later: Vec<S> = sets_of(part, 1);
            let start = Instant::now();
            for set in &mut sets {
                for one in &later {
                    set.then(one);
                }
            }
            taken += start.elapsed();
        }
        sum += sizes(&sets);
    }
    report(name, scale.size, taken, UPDATES, sum);
}

fn copying<S: Set>(scale: Scale) {
    let set: S = set_of(&rising(scale.size), ONE);
    let copies = scale.rounds * scale.sets;
    let mut sum = 0;
    let start = Instant::now();
    for _ in 0..copies {
        let copy = set.clone();
        sum += copy.len() as u64;
    }
    report("copy", scale.size, start.elapsed(), copies, sum);
}

fn codes_at<S: Set>(set: &S, order: &[usize]) -> u64 {
    let mut sum: u64 = 0;
    for n in order {
        if let Some((low, high)) = set.get(*n) {
            sum = sum.wrapping_add(low.code()).wrapping_add(high.code());
        }
    }
    sum
}

fn getting<S: Set>(scale: Scale) {
    let set: S = set_of(&rising(scale.size), ONE);
    let order = scattered(0, scale.size);
    let mut sum: u64 = 0;
    let start = Instant::now();
    for _ in 0..scale.rounds * scale.sets {
        sum = sum.wrapping_add(codes_at(&set, &order));
    }
    report("get", scale.size, start.elapsed(), UPDATES, sum);
}

fn clearing<S: Set>(scale: Scale) {
    let mut set: S = set_of(&rising(scale.size), ONE);
    let mut sum = 0;
    let start = Instant::now();
    for _ in 0..CLEARED {
        set.clear();
        set.add(0, ONE, ONE);
        sum += set.len() as u64;
    }
    report("clear-add", scale.size, start.elapsed(), CLEARED, sum);
}

fn codes(state: &[Value]) -> u64 {
    state
        .iter()
        .fold(0, |sum, value| sum.wrapping_add(value.code()))
}

fn firing<S: Set>(order: &[usize], size: usize) {
    let sets: Vec<S> = sets_of(order, size);
    let mut state = vec![Value::Undef; LOCATIONS];
    let start = Instant::now();
    for _ in 0..UPDATES / order.len() {
        for set in &sets {
            set.fire_into(&mut state);
        }
    }
    report("fire", size, start.elapsed(), UPDATES, codes(&state));
}

fn copying_states() {
    let mut state = vec![Value::Undef; LOCATIONS];
    let start = Instant::now();
    for _ in 0..STATES {
        state = state.clone();
    }
    report(
        "state-copy",
        LOCATIONS,
        start.elapsed(),
        STATES,
        codes(&state),
    );
}

fn stepping<S: Set>(order: &[usize]) {
    let sets: Vec<S> = sets_of(order, 1);
    let mut state = vec![Value::Undef; LOCATIONS];
    let start = Instant::now();
    for set in &sets {
        let mut next = state.clone();
        set.fire_into(&mut next);
        state = next;
    }
    report(
        "step-one",
        LOCATIONS,
        start.elapsed(),
        sets.len(),
        codes(&state),
    );
}

fn measure<S: Set>() {
    for scale in SCALES {
        let size = scale.size;
        adding::<S>("add-rising", scale, &rising(size));
        adding::<S>("add-falling", scale, &falling(size));
        adding::<S>("add-scattered", scale, &scattered(0, size));
        uniting::<S>(scale);
        merging::<S>("then-present", scale, &scattered(0, size));
        merging::<S>("then-absent", scale, &scattered(size, size));
        copying::<S>(scale);
        getting::<S>(scale);
        clearing::<S>(scale);
    }
    let order = scattered(0, LOCATIONS);
    for size in [1, 16, 1_024] {
        firing::<S>(&order[..FIRED], size);
    }
    firing::<S>(&order, LOCATIONS);
    copying_states();
    stepping::<S>(&order[..FIRED]);
}

fn main() {
    match std::env::args().nth(1).as_deref() {
        Some("hash") => measure::<Hash>(),
        Some("tree") => measure::<Tree>(),
        _ => panic!("peer hash, or peer tree"),
    }
}
