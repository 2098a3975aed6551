//! `colliding KIND COUNT` prints COUNT keys that fall together in a hash map of the kit's `indexmap` with as many entries, one in a line:
//! the lowest bits of their hashes, which say where a search begins, are those of the first one, and so are the highest eight, by which
//! a search tells entries apart without a look at them.
//!
//! The hash has no secret, so that a search through all keys of a form finds them. KIND is `names`, as a slice of bytes is hashed, `keys`,
//! as a `Text` of up to eight bytes is, `numbers`, as a list of one number of an entry is, or `places`, as a step and a path are.
use std::ops::Range;

const MULTIPLIER: u64 = 0x9e37_79b9_7f4a_7c15;
const INITIAL: u64 = 0x243f_6a88_85a3_08d3;

/// Entries for each group of a table, at most.
const LOAD: usize = 9;

const LETTERS: &[u8; 36] = b"abcdefghijklmnopqrstuvwxyz0123456789";

/// Numbers that one worker tries at a time for their last parts.
const LAST: u64 = 1_000;

fn written(state: u64, word: u64, bytes: u64) -> u64 {
    let product = u128::from(state ^ word) * u128::from(MULTIPLIER ^ (2 * bytes));
    product as u64 ^ (product >> 64) as u64
}

/// Keys of one form: each has a front and one of some ends.
trait Form: Sync {
    fn ends(&self) -> u64;
    /// The hasher's state behind the front.
    fn state(&self, front: u64) -> u64;
    /// What is written last, and of how many bytes.
    fn end(&self, front: u64, end: u64) -> (u64, u64);
    fn text(&self, front: u64, end: u64) -> String;
}

/// The letters of a number, the first of which is none of the digits.
fn spelled(front: u64) -> [u8; 6] {
    let mut rest = front;
    let mut letters = [0; 6];
    for letter in letters.iter_mut().skip(1).rev() {
        *letter = LETTERS[(rest % 36) as usize];
        rest /= 36;
    }
    letters[0] = LETTERS[(rest % 26) as usize];
    letters
}

fn name(front: u64, end: u64) -> String {
    let mut text = String::from_utf8_lossy(&spelled(front)).into_owned();
    text.push(char::from(LETTERS[end as usize]));
    text
}

/// The length, and then each byte.
struct Names;

impl Form for Names {
    fn ends(&self) -> u64 {
        36
    }

    fn state(&self, front: u64) -> u64 {
        let length = written(INITIAL, 7, 8);
        spelled(front).iter().fold(length, |state, byte| written(state, u64::from(*byte) * 0x1_0101, 1))
    }

    fn end(&self, _front: u64, end: u64) -> (u64, u64) {
        (u64::from(LETTERS[end as usize]) * 0x1_0101, 1)
    }

    fn text(&self, front: u64, end: u64) -> String {
        name(front, end)
    }
}

/// All bytes side by side.
struct Keys;

impl Form for Keys {
    fn ends(&self) -> u64 {
        36
    }

    fn state(&self, front: u64) -> u64 {
        INITIAL ^ spelled(front).iter().fold(0, |key, byte| (key + u64::from(*byte)) << 8)
    }

    fn end(&self, _front: u64, end: u64) -> (u64, u64) {
        (u64::from(LETTERS[end as usize]), 8)
    }

    fn text(&self, front: u64, end: u64) -> String {
        name(front, end)
    }
}

/// The length of the list, the variant, and the number.
struct Numbers;

impl Form for Numbers {
    fn ends(&self) -> u64 {
        LAST
    }

    fn state(&self, _front: u64) -> u64 {
        written(written(INITIAL, 1, 8), 2, 8)
    }

    fn end(&self, front: u64, end: u64) -> (u64, u64) {
        (front * LAST + end, 8)
    }

    fn text(&self, front: u64, end: u64) -> String {
        (front * LAST + end).to_string()
    }
}

/// The step, the length of the path, and its two numbers.
struct Places;

impl Form for Places {
    fn ends(&self) -> u64 {
        LAST
    }

    fn state(&self, front: u64) -> u64 {
        let length = written(written(INITIAL, 1, 8), 2, 8);
        written(length, front, 8)
    }

    fn end(&self, _front: u64, end: u64) -> (u64, u64) {
        (end, 8)
    }

    fn text(&self, front: u64, end: u64) -> String {
        format!("1 {front}.{end}")
    }
}

/// The fronts and the ends of keys whose hashes have the bits that are looked for.
fn found(form: &impl Form, fronts: Range<u64>, mask: u32, wanted: u32) -> Vec<(u64, u64)> {
    let mut all = Vec::new();
    for front in fronts {
        let state = form.state(front);
        for end in 0..form.ends() {
            let (word, bytes) = form.end(front, end);
            let hash = written(state, word, bytes);
            if (hash ^ (hash >> 32)) as u32 & mask == wanted {
                all.push((front, end));
            }
        }
    }
    all
}

/// The first keys that fall together with the very first one, by rounds of a piece for each processor.
fn search(form: &impl Form, count: usize) -> Vec<(u64, u64)> {
    let groups = count.div_ceil(LOAD).next_power_of_two() as u32;
    let mask = 0xff00_0000 | (groups - 1);
    let (word, bytes) = form.end(0, 0);
    let first = written(form.state(0), word, bytes);
    let wanted = (first ^ (first >> 32)) as u32 & mask;
    let piece = (1 << 24) / form.ends();
    let workers = std::thread::available_parallelism().map_or(1, usize::from);
    let workers = workers as u64;
    let mut next = 0;
    let mut all = Vec::new();
    while all.len() < count {
        let pieces = next..next + workers;
        next = pieces.end;
        let rounds = std::thread::scope(|scope| {
            let started: Vec<_> =
                pieces.map(|number| scope.spawn(move || found(form, number * piece..(number + 1) * piece, mask, wanted))).collect();
            started.into_iter().map(|thread| thread.join().expect("a worker")).collect::<Vec<_>>()
        });
        all.extend(rounds.into_iter().flatten());
    }
    all.truncate(count);
    all
}

fn print(form: &impl Form, count: usize) {
    for (front, end) in search(form, count) {
        println!("{}", form.text(front, end));
    }
}

fn main() {
    let words: Vec<String> = std::env::args().skip(1).collect();
    let count = words.get(1).and_then(|word| word.parse().ok()).expect("how many");
    match words[0].as_str() {
        "names" => print(&Names, count),
        "keys" => print(&Keys, count),
        "numbers" => print(&Numbers, count),
        "places" => print(&Places, count),
        _ => panic!("names, keys, numbers or places"),
    }
}
