//! `measure TEXT PROGRAM WORDS..` runs the program with the file TEXT on standard input and its standard output thrown away, and
//! prints `seconds kilobytes status`. A small parent of its own, so that the resident memory is the program's.
use std::fs::File;
use std::process::{Command, Stdio};
use std::time::Instant;

#[repr(C)]
struct Usage {
    times: [i64; 4],
    greatest_resident: i64,
    rest: [i64; 13],
}

extern "C" {
    fn getrusage(who: i32, usage: *mut Usage) -> i32;
}

const CHILDREN: i32 = -1;

fn main() {
    let words: Vec<String> = std::env::args().skip(1).collect();
    let text = File::open(&words[0]).expect("the text");
    let start = Instant::now();
    let status = Command::new(&words[1])
        .args(&words[2..])
        .stdin(text)
        .stdout(Stdio::null())
        .stderr(Stdio::null())
        .status()
        .expect("the program");
    let seconds = start.elapsed().as_secs_f64();
    let mut usage = Usage { times: [0; 4], greatest_resident: 0, rest: [0; 13] };
    unsafe { getrusage(CHILDREN, &mut usage) };
    println!("{seconds} {} {}", usage.greatest_resident, status.code().unwrap_or(-1));
}
