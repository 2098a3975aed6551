//! Measures puts as the program `table` does, on words of the standard library's `AtomicU64` that lie as those of the table. The
//! lines of the output are those of `table`.
use std::sync::atomic::AtomicU64;
use std::sync::atomic::Ordering::SeqCst;
use std::thread;
use std::time::{Duration, Instant};

/// How often each measurement is made in a run.
const ROUNDS: usize = 64;

/// How many locations the table has. So many puts each thread makes.
const LOCATIONS: usize = 16_384;

/// How far apart threads begin that go around all locations.
const APART: usize = LOCATIONS / 4;

/// When the threads begin. Those that are started first wait for the others.
const MEETING: Duration = Duration::from_micros(500);

/// How often a thread that waits reads the clock at most.
const MOST_READINGS: usize = 1_000_000;

#[derive(Clone, Copy)]
enum Places {
    /// The same two codes at one location.
    Same,
    /// At one location, codes of which each pair is wider than the one before it.
    Widening,
    /// The same two codes at each location in turn.
    Around,
}

impl Places {
    fn name(self) -> &'static str {
        match self {
            Places::Same => "same",
            Places::Widening => "widening",
            Places::Around => "around",
        }
    }
}

/// The code of an element of an enumeration.
fn code(index: u32) -> u64 {
    200_000_000_000_000_005 + u64::from(index)
}

/// Word 0 stands for nothing, and words 2 n + 1 and 2 n + 2 are the low and the high word of location n.
struct Words(Vec<AtomicU64>);

impl Words {
    fn open(count: usize) -> Words {
        let mut words: Vec<AtomicU64> = (0..2 * count + 1).map(|_| AtomicU64::new(0)).collect();
        for n in 0..count {
            *words[2 * n + 1].get_mut() = u64::MAX;
        }
        Words(words)
    }

    /// Answers both words as they were found.
    fn put(&self, n: usize, low: u64, high: u64) -> (u64, u64) {
        let low_before = self.0[2 * n + 1].fetch_min(low, SeqCst);
        let high_before = self.0[2 * n + 2].fetch_max(high, SeqCst);
        (low_before, high_before)
    }

    /// The sum of all words where something was put.
    fn sum(mut self) -> u64 {
        let mut sum = 0u64;
        for pair in self.0[1..].chunks_exact_mut(2) {
            let (low, high) = (*pair[0].get_mut(), *pair[1].get_mut());
            if low != u64::MAX {
                sum = sum.wrapping_add(low).wrapping_add(high);
            }
        }
        sum
    }
}

/// Makes all puts of a thread, at this location or from it on.
fn put_all(words: &Words, places: Places, first: usize) {
    match places {
        Places::Same => {
            for _ in 0..LOCATIONS {
                words.put(first, code(1), code(2));
            }
        }
        Places::Widening => {
            for i in 0..16_384u32 {
                words.put(first, code(16_384 - i), code(16_384 + i));
            }
        }
        Places::Around => {
            for n in (first..LOCATIONS).chain(0..first) {
                words.put(n, code(1), code(2));
            }
        }
    }
}

/// Waits for the other threads, and makes the puts of one. The answer is when it began and when it ended.
fn put_lane(words: &Words, places: Places, n: usize, start: Instant, lane: usize) -> (Duration, Duration) {
    for _ in 0..MOST_READINGS {
        if MEETING <= start.elapsed() {
            break;
        }
    }
    let first = match places {
        Places::Same | Places::Widening => n,
        Places::Around => lane * APART,
    };
    let begun = start.elapsed();
    put_all(words, places, first);
    (begun, start.elapsed())
}

fn putting(places: Places, n: usize, lanes: usize) {
    let words = Words::open(LOCATIONS);
    let start = Instant::now();
    let times = thread::scope(|scope| {
        let others: Vec<_> = (1..lanes)
            .map(|lane| scope.spawn({ let words = &words; move || put_lane(words, places, n, start, lane) }))
            .collect();
        let mut times = vec![put_lane(&words, places, n, start, 0)];
        times.extend(others.into_iter().map(|other| other.join().expect("a thread that puts")));
        times
    });
    let begun = times.iter().map(|(begun, _)| *begun);
    let ended = times.iter().map(|(_, ended)| *ended);
    let in_all = ended.clone().max().unwrap() - begun.clone().min().unwrap();
    let together = ended.min().unwrap().saturating_sub(begun.max().unwrap());
    println!(
        "{} {lanes} {} {} {}",
        places.name(),
        in_all.as_nanos(),
        together.as_nanos(),
        words.sum()
    );
}

fn main() {
    for round in 0..ROUNDS {
        for places in [Places::Same, Places::Widening, Places::Around] {
            for lanes in [1, 2, 4] {
                putting(places, round % 4, lanes);
            }
        }
    }
}
