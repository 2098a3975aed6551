//! A plain, fast tree-walking interpreter of the same language, as a yardstick for speed: what one writes without proofs.
//!
//! Names are resolved to numbers beforehand; the state is a flat vector; an update set is a list of (location, least, greatest)
//! with an index by location. `--workers N` splits the elements of a `forall` and the parts of a `par` into N fixed chunks on scoped
//! threads, where these are many and stand in no chunk themselves. `--edition narrow` goes by the rules that held before numbers to
//! 10^17, 65,536 locations and lines of a script for every step.
mod chunks;
mod evaluator;
mod parser;
mod resolver;
mod tokens;
mod trace;
mod updates;
mod values;
mod words;

use crate::words::status;

fn main() {
    let t = std::thread::Builder::new()
        .stack_size(1 << 29)
        .spawn(|| std::process::exit(status()));
    t.unwrap().join().unwrap();
}
