//! Scripts, words and statuses.
use crate::evaluator::Script;
use crate::parser::Parser;
use crate::resolver::resolve;
use crate::tokens::{lex, Names, Refused};
use crate::trace::run;
use std::collections::HashMap;
use std::io::Read;

pub fn small(b: &[u8]) -> Option<u64> {
    if b.is_empty() || b.len() > 9 {
        return None;
    }
    let mut n = 0;
    for c in b {
        if !c.is_ascii_digit() {
            return None;
        }
        n = n * 10 + (c - b'0') as u64;
    }
    Some(n)
}

pub fn read_script(text: &[u8], stars: bool) -> Result<Script, (u32, usize)> {
    if text.len() > 1 << 20 {
        return Err((3, 0));
    }
    let mut s = Script::default();
    let mut rest = text;
    let mut number = 0;
    while !rest.is_empty() {
        number += 1;
        let end = rest.iter().position(|b| *b == b'\n');
        let mut line = &rest[..end.unwrap_or(rest.len())];
        rest = &rest[end.map_or(rest.len(), |e| e + 1)..];
        if let Some((b'\r', less)) = line.split_last() {
            line = less;
        }
        if line.is_empty() || line[0] == b'#' {
            continue;
        }
        let bad = Err((1, number));
        let mut f = line.splitn(3, |b| *b == b' ');
        let (a, b, c) = match (f.next(), f.next(), f.next()) {
            (Some(a), Some(b), Some(c)) => (a, b, c),
            _ => return bad,
        };
        let star = stars && a == b"*";
        let step = if star { 0 } else { small(a).unwrap_or(0) };
        if !star && step == 0 {
            return bad;
        }
        let mut place = Vec::new();
        if b != b"-" {
            for x in b.split(|b| *b == b'.') {
                match small(x) {
                    Some(n) => place.push(n),
                    None => return bad,
                }
            }
        }
        let Some(k) = small(c) else { return bad };
        let before = if star {
            s.every.insert(place, k)
        } else {
            s.exact.insert((step, place), k)
        };
        if before.is_some() {
            return Err((2, number));
        }
    }
    Ok(s)
}

pub fn slurp(name: Option<&str>) -> Option<Vec<u8>> {
    let mut v = Vec::new();
    match name {
        Some(n) => std::fs::File::open(n)
            .ok()?
            .take((1 << 20) + 1)
            .read_to_end(&mut v)
            .ok()?,
        None => std::io::stdin()
            .take((1 << 20) + 1)
            .read_to_end(&mut v)
            .ok()?,
    };
    Some(v)
}

/// The rules that a run goes by: the greatest number, how many controlled locations there may be, and whether lines of a script may
/// be for every step.
#[derive(Clone, Copy)]
pub struct Edition {
    most: i64,
    most_locations: u64,
    stars: bool,
}

/// Those of the language as it is.
const WIDE: Edition = Edition {
    most: 100_000_000_000_000_000,
    most_locations: 65_536,
    stars: true,
};

/// Those that it had before.
const NARROW: Edition = Edition {
    most: 1_000_000_000_000_000,
    most_locations: 16_384,
    stars: false,
};

fn edition(name: &str) -> Option<Edition> {
    match name {
        "wide" => Some(WIDE),
        "narrow" => Some(NARROW),
        _ => None,
    }
}

/// What the command line says.
pub struct Words {
    spec: Option<String>,
    script: Option<String>,
    edition: Edition,
    numbers: HashMap<String, u64>,
}

pub fn words() -> Option<Words> {
    let mut spec = None;
    let mut script = None;
    let mut named = None;
    let mut n: HashMap<String, u64> = HashMap::new();
    let mut it = std::env::args().skip(1);
    while let Some(w) = it.next() {
        if !w.starts_with("--") {
            if spec.replace(w).is_some() {
                return None;
            }
            continue;
        }
        let (k, v) = match w.split_once('=') {
            Some((k, v)) => (k.to_string(), v.to_string()),
            None => (w, it.next()?),
        };
        if k == "--script" {
            if script.replace(v).is_some() {
                return None;
            }
            continue;
        }
        if k == "--edition" {
            if named.replace(edition(&v)?).is_some() {
                return None;
            }
            continue;
        }
        let (low, high) = match &*k {
            "--steps" => (0, 1_000_000),
            "--turns" => (1, 1_000_000),
            "--workers" => (1, 32),
            "--cut" => (1, 4096),
            "--rounds" => (0, 64),
            _ => return None,
        };
        let x: u64 = v.parse().ok()?;
        if x < low || x > high || n.insert(k, x).is_some() {
            return None;
        }
    }
    n.get("--steps")?;
    Some(Words {
        spec,
        script,
        edition: named.unwrap_or(WIDE),
        numbers: n,
    })
}

pub fn status() -> i32 {
    let Some(Words {
        spec,
        script,
        edition,
        numbers,
    }) = words()
    else {
        eprintln!("words");
        return 4;
    };
    let get = |k: &str, d: u64| *numbers.get(k).unwrap_or(&d);
    let Some(text) = slurp(spec.as_deref()) else {
        eprintln!("file");
        return 3;
    };
    let mut script_text = vec![];
    if let Some(f) = &script {
        match slurp(Some(f)) {
            Some(t) => script_text = t,
            None => {
                eprintln!("file");
                return 3;
            }
        }
    }
    let mut names = Names {
        ids: HashMap::new(),
        text: vec![],
    };
    let prog = (|| {
        let t = lex(&text, &mut names, edition.most)?;
        let mut p = Parser {
            t: &t,
            i: 0,
            depth: 0,
            saw_result: false,
        };
        let items = p.spec()?;
        resolve(
            &items,
            &names,
            text.len() as u32,
            edition.most,
            edition.most_locations,
        )
    })();
    let prog = match prog {
        Ok(p) => p,
        Err(Refused::Read(n, None)) => {
            eprintln!("read {n}");
            return 2;
        }
        Err(Refused::Read(n, Some(at))) => {
            eprintln!("read {n} at {at}");
            return 2;
        }
        Err(Refused::Check(n, at)) => {
            eprintln!("check {n} at {at}");
            return 2;
        }
    };
    let script = match read_script(&script_text, edition.stars) {
        Ok(s) => s,
        Err((3, _)) => {
            eprintln!("script 3");
            return 2;
        }
        Err((n, l)) => {
            eprintln!("script {n} line {l}");
            return 2;
        }
    };
    match run(
        &prog,
        &names,
        &script,
        get("--steps", 0),
        get("--turns", 1000),
        get("--workers", 1) as usize,
    ) {
        Ok(true) => 0,
        Ok(false) => 1,
        Err(_) => {
            eprintln!("write");
            3
        }
    }
}
