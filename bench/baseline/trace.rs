//! Runs and their traces.
use crate::evaluator::{Evaluator, Frame, Script};
use crate::resolver::{Function, Program};
use crate::tokens::Names;
use crate::updates::UpdateSet;
use crate::values::{as_number, Value, ELEMENT, FALSE, TRUE, UNDEF};
use std::io::Write;

pub struct Printer<'a> {
    pub p: &'a Program,
    pub names: &'a Names<'a>,
    pub controlled: Vec<u32>,
    pub out: Vec<u8>,
}

impl<'a> Printer<'a> {
    pub fn number(&mut self, n: i64) {
        let mut b = [0u8; 24];
        let mut i = b.len();
        let mut m = n.unsigned_abs();
        loop {
            i -= 1;
            b[i] = b'0' + (m % 10) as u8;
            m /= 10;
            if m == 0 {
                break;
            }
        }
        if n < 0 {
            i -= 1;
            b[i] = b'-';
        }
        self.out.extend_from_slice(&b[i..]);
    }
    pub fn text(&mut self, s: &str) {
        self.out.extend_from_slice(s.as_bytes());
    }
    pub fn value(&mut self, v: Value) {
        match v {
            UNDEF => self.text("undef"),
            FALSE => self.text("false"),
            TRUE => self.text("true"),
            v if v < ELEMENT => self.number(as_number(v)),
            v => {
                let s = self.names.text[self.p.elements[(v - ELEMENT) as usize] as usize];
                self.out.extend_from_slice(s);
            }
        }
    }
    pub fn function(&self, l: u32) -> &'a Function {
        let p = self.p;
        let k = self
            .controlled
            .partition_point(|f| p.functions[*f as usize].base <= l)
            - 1;
        &p.functions[self.controlled[k] as usize]
    }
    pub fn location_of(&mut self, f: &Function, l: u32) {
        let name = self.names.text[f.name as usize];
        self.out.extend_from_slice(name);
        if f.domain.is_empty() {
            return;
        }
        let mut index = (l - f.base) as u64;
        let mut at = [0u64; 4];
        for k in (0..f.domain.len()).rev() {
            let n = self.p.universes[f.domain[k] as usize].size;
            at[k] = index % n;
            index /= n;
        }
        self.text("(");
        for k in 0..f.domain.len() {
            if k > 0 {
                self.text(", ");
            }
            self.value(self.p.universes[f.domain[k] as usize].low + at[k]);
        }
        self.text(")");
    }
    pub fn location(&mut self, l: u32) {
        self.location_of(self.function(l), l)
    }
    pub fn place(&mut self, p: &[u64]) {
        if p.is_empty() {
            self.text("-");
        }
        for (k, n) in p.iter().enumerate() {
            if k > 0 {
                self.text(".");
            }
            self.number(*n as i64);
        }
    }
    pub fn flush(&mut self, least: usize) -> std::io::Result<()> {
        if self.out.len() >= least {
            std::io::stdout().lock().write_all(&self.out)?;
            self.out.clear();
        }
        Ok(())
    }
}

pub fn run(
    p: &Program,
    names: &Names,
    script: &Script,
    steps: u64,
    turns: u64,
    workers: usize,
) -> std::io::Result<bool> {
    let mut c = Evaluator::new(p, script, turns);
    for f in &p.functions {
        if f.controlled {
            c.state.extend_from_slice(&f.opening);
            c.state.push(UNDEF);
        }
    }
    if workers > 1 {
        for _ in 0..workers {
            c.children
                .push((Evaluator::new(p, script, turns), UpdateSet::new(p.count)));
        }
    }
    let controlled = (0..p.functions.len() as u32)
        .filter(|f| p.functions[*f as usize].controlled)
        .collect();
    let mut pr = Printer {
        p,
        names,
        controlled,
        out: Vec::with_capacity(1 << 17),
    };
    let (body, slots) = &p.rules[p.main as usize];
    c.enter(*slots);
    let frame = Frame {
        base: 0,
        args: &[],
        caller: None,
        result: 0,
    };
    let mut set = UpdateSet::new(p.count);
    let mut well = true;
    for step in 1..=steps {
        c.step = step;
        c.instances = 0;
        if let Err(place) = c.rule(body, &frame, &mut set) {
            pr.text("end exhausted step ");
            pr.number(step as i64);
            pr.text(" place ");
            pr.place(&place);
            pr.text("\n");
            well = false;
            break;
        }
        if set.bad {
            let (l, low, high) = *set
                .list
                .iter()
                .filter(|(l, a, b)| a != b || p.stray[*l as usize])
                .min_by_key(|e| e.0)
                .unwrap();
            if p.stray[l as usize] {
                pr.text("end outside step ");
                pr.number(step as i64);
                pr.text(" ");
                let f = pr.function(l);
                pr.out.extend_from_slice(names.text[f.name as usize]);
            } else {
                pr.text("end clash step ");
                pr.number(step as i64);
                pr.text(" ");
                pr.location(l);
                pr.text(" least ");
                pr.value(low);
                pr.text(" greatest ");
                pr.value(high);
            }
            pr.text("\n");
            well = false;
            break;
        }
        pr.text("step ");
        pr.number(step as i64);
        pr.text(" instances ");
        // a u64 may be above the greatest i64
        let i = c.instances.to_string();
        pr.text(&i);
        pr.text("\n");
        set.list.sort_unstable();
        for k in 0..set.list.len() {
            let (l, v, _) = set.list[k];
            c.state[l as usize] = v;
            pr.location(l);
            pr.text(" := ");
            pr.value(v);
            pr.text("\n");
        }
        set.clear();
        pr.flush(1 << 16)?;
    }
    if well {
        pr.text("end limit\n");
    }
    pr.text("state\n");
    for f in &p.functions {
        if f.controlled {
            for l in f.base..f.base + f.size {
                let v = c.state[l as usize];
                if v != UNDEF {
                    pr.location_of(f, l);
                    pr.text(" = ");
                    pr.value(v);
                    pr.text("\n");
                }
            }
        }
    }
    pr.flush(0)?;
    Ok(well)
}
