//! Terms and rules.
use crate::resolver::{Program, Rule, Term, Universe};
use crate::tokens::Kind;
use crate::updates::UpdateSet;
use crate::values::{as_number, is_number, number, truth, Value, FALSE, TRUE, UNDEF};
use std::collections::HashMap;

#[derive(Clone, Copy)]
pub struct Frame<'f> {
    pub base: usize,
    pub args: &'f [Term],
    pub caller: Option<&'f Frame<'f>>,
    pub result: u32,
}

#[derive(Default)]
pub struct Script {
    pub exact: HashMap<(u64, Vec<u64>), u64>,
    pub every: HashMap<Vec<u64>, u64>,
}

pub struct Evaluator<'a> {
    pub p: &'a Program,
    pub script: &'a Script,
    pub scripted: bool,
    pub state: Vec<Value>,
    pub stack: Vec<Value>,
    pub top: usize,
    pub place: Vec<u64>,
    pub pool: Vec<UpdateSet>,
    pub instances: u64,
    pub step: u64,
    pub turns: u64,
    pub children: Vec<(Evaluator<'a>, UpdateSet)>,
}

pub type Done = Result<(), Vec<u64>>;

impl<'a> Evaluator<'a> {
    pub fn new(p: &'a Program, script: &'a Script, turns: u64) -> Evaluator<'a> {
        Evaluator {
            p,
            script,
            scripted: !(script.exact.is_empty() && script.every.is_empty()),
            state: vec![],
            stack: vec![0; 1024],
            top: 0,
            place: vec![],
            pool: vec![],
            instances: 0,
            step: 0,
            turns,
            children: vec![],
        }
    }

    pub fn enter(&mut self, slots: u32) -> usize {
        let base = self.top;
        self.top += slots as usize;
        if self.top > self.stack.len() {
            self.stack.resize(self.top * 2, 0);
        }
        base
    }

    #[inline]
    pub fn locate(&mut self, f: u32, args: &[Term], frame: &Frame) -> u32 {
        let p = self.p;
        let function = &p.functions[f as usize];
        let mut index = 0u64;
        let mut inside = true;
        for (t, u) in args.iter().zip(&function.domain) {
            let v = self.value(t, frame);
            let u = &p.universes[*u as usize];
            match u.position(v) {
                Some(k) => index = index * u.size + k,
                None => inside = false,
            }
        }
        function.base + if inside { index as u32 } else { function.size }
    }

    pub fn binary(&self, k: Kind, a: Value, b: Value) -> Value {
        match k {
            Kind::Eq => return truth(a == b),
            Kind::Ne => return truth(a != b),
            Kind::And | Kind::Or => {
                let both = a >= FALSE && a <= TRUE && b >= FALSE && b <= TRUE;
                return if !both {
                    UNDEF
                } else if k == Kind::And {
                    a.min(b)
                } else {
                    a.max(b)
                };
            }
            _ => {}
        }
        if !is_number(a) || !is_number(b) {
            return UNDEF;
        }
        let (x, y) = (as_number(a), as_number(b));
        let n = match k {
            Kind::Plus => x + y,
            Kind::Minus => x - y,
            Kind::Star => match x.checked_mul(y) {
                Some(n) => n,
                None => return UNDEF,
            },
            Kind::Div if y != 0 => x.div_euclid(y),
            Kind::Mod if y != 0 => x.rem_euclid(y),
            Kind::Lt => return truth(x < y),
            Kind::Le => return truth(x <= y),
            Kind::Gt => return truth(x > y),
            Kind::Ge => return truth(x >= y),
            _ => return UNDEF,
        };
        if n.unsigned_abs() <= self.p.most as u64 {
            number(n)
        } else {
            UNDEF
        }
    }

    pub fn value(&mut self, t: &Term, frame: &Frame) -> Value {
        match t {
            Term::C(v) => *v,
            Term::Local(s) => self.stack[frame.base + *s as usize],
            Term::Param(i) => {
                let c = frame.caller.unwrap();
                let t = &frame.args[*i as usize];
                self.value(t, c)
            }
            Term::Answer => self.state[frame.result as usize],
            Term::F0(l) => self.state[*l as usize],
            Term::F1(f, a) => {
                let v = self.value(a, frame);
                let p = self.p;
                let function = &p.functions[*f as usize];
                match p.universes[function.domain[0] as usize].position(v) {
                    None => UNDEF,
                    Some(k) if function.controlled => {
                        self.state[function.base as usize + k as usize]
                    }
                    Some(k) => function.opening[k as usize],
                }
            }
            Term::Function(f, args) => {
                let p = self.p;
                let function = &p.functions[*f as usize];
                let l = self.locate(*f, args, frame);
                if function.controlled {
                    self.state[l as usize]
                } else {
                    *function
                        .opening
                        .get((l - function.base) as usize)
                        .unwrap_or(&UNDEF)
                }
            }
            Term::Derived(d, args) => {
                let p = self.p;
                let (body, slots) = &p.derived_functions[*d as usize];
                let base = self.enter(*slots);
                for (k, a) in args.iter().enumerate() {
                    let v = self.value(a, frame);
                    self.stack[base + k] = v;
                }
                let v = self.value(
                    body,
                    &Frame {
                        base,
                        args: &[],
                        caller: None,
                        result: 0,
                    },
                );
                self.top = base;
                v
            }
            Term::Bin(k, ab) => {
                let a = self.value(&ab.0, frame);
                let b = self.value(&ab.1, frame);
                self.binary(*k, a, b)
            }
            Term::Chain(a, rest) => {
                let mut a = self.value(a, frame);
                for (k, b) in rest.iter() {
                    let b = self.value(b, frame);
                    a = self.binary(*k, a, b);
                }
                a
            }
            Term::Not(x) => match self.value(x, frame) {
                TRUE => FALSE,
                FALSE => TRUE,
                _ => UNDEF,
            },
            Term::Negative(x) => {
                let v = self.value(x, frame);
                if is_number(v) {
                    number(-as_number(v))
                } else {
                    UNDEF
                }
            }
            Term::Quantifier(every, s, u, t) => {
                let u = self.p.universes[*u as usize];
                for k in 0..u.size {
                    self.stack[frame.base + *s as usize] = u.low + k;
                    if (self.value(t, frame) == TRUE) != *every {
                        return truth(!*every);
                    }
                }
                truth(*every)
            }
        }
    }

    pub fn at(&mut self, n: u64, r: &Rule, frame: &Frame, out: &mut UpdateSet) -> Done {
        self.place.push(n);
        let d = self.rule(r, frame, out);
        self.place.pop();
        d
    }

    pub fn spare(&mut self) -> UpdateSet {
        self.pool
            .pop()
            .unwrap_or_else(|| UpdateSet::new(self.p.count))
    }

    pub fn give_back(&mut self, mut u: UpdateSet) {
        u.clear();
        self.pool.push(u);
    }

    /// Joins a consistent or faulty part to the set so far and fires it where it is consistent.
    pub fn join(
        &mut self,
        so_far: &mut UpdateSet,
        part: &mut UpdateSet,
        saved: &mut Vec<(u32, Value)>,
    ) {
        for (l, low, high) in part.list.drain(..) {
            part.index[l as usize] = 0;
            let i = so_far.index[l as usize];
            if i == 0 {
                so_far.list.push((l, low, high));
                so_far.index[l as usize] = so_far.list.len() as u32;
                if !part.bad {
                    saved.push((l, self.state[l as usize]));
                }
            } else {
                so_far.list[i as usize - 1] = (l, low, high);
            }
            if !part.bad {
                self.state[l as usize] = low;
            }
        }
        so_far.bad |= part.bad;
        part.bad = false;
    }

    pub fn finish(
        &mut self,
        so_far: UpdateSet,
        part: UpdateSet,
        saved: Vec<(u32, Value)>,
        end: Done,
        out: &mut UpdateSet,
    ) -> Done {
        for (l, v) in saved {
            self.state[l as usize] = v;
        }
        if end.is_ok() {
            for (l, low, high) in &so_far.list {
                out.add(self.p, *l, *low, *high);
            }
        }
        self.give_back(so_far);
        self.give_back(part);
        end
    }

    pub fn call(
        &mut self,
        r: u32,
        args: &[Term],
        result: u32,
        frame: &Frame,
        out: &mut UpdateSet,
    ) -> Done {
        let (body, slots) = &self.p.rules[r as usize];
        let base = self.enter(*slots);
        let d = self.at(
            0,
            body,
            &Frame {
                base,
                args,
                caller: Some(frame),
                result,
            },
            out,
        );
        self.top = base;
        d
    }

    pub fn span(
        &mut self,
        s: u32,
        u: Universe,
        test: &Option<Term>,
        body: &Rule,
        from: u64,
        to: u64,
        frame: &Frame,
        out: &mut UpdateSet,
    ) -> Done {
        let slot = frame.base + s as usize;
        for k in from..to {
            self.stack[slot] = u.low + k;
            if let Some(t) = test {
                if self.value(t, frame) != TRUE {
                    continue;
                }
            }
            self.instances = self.instances.saturating_add(1);
            self.at(k, body, frame, out)?;
        }
        Ok(())
    }

    pub fn rule(&mut self, r: &Rule, frame: &Frame, out: &mut UpdateSet) -> Done {
        match r {
            Rule::Skip => Ok(()),
            Rule::Set0(l, t) => {
                let v = self.value(t, frame);
                out.add(self.p, *l, v, v);
                Ok(())
            }
            Rule::Set(f, args, t) => {
                let l = self.locate(*f, args, frame);
                let v = self.value(t, frame);
                out.add(self.p, l, v, v);
                Ok(())
            }
            Rule::SetAnswer(t) => {
                let v = self.value(t, frame);
                out.add(self.p, frame.result, v, v);
                Ok(())
            }
            Rule::Call(r, args) => self.call(*r, args, 0, frame, out),
            Rule::Into(f, args, r, terms) => {
                let l = self.locate(*f, args, frame);
                self.call(*r, terms, l, frame, out)
            }
            Rule::Par(parts) => self.in_chunks(parts.len() as u64, out, |worker, from, to, set| {
                for k in from..to {
                    worker.at(k, &parts[k as usize], frame, set)?;
                }
                Ok(())
            }),
            Rule::If(c, yes, no) => {
                if self.value(c, frame) == TRUE {
                    self.at(0, yes, frame, out)
                } else if let Some(no) = no {
                    self.at(1, no, frame, out)
                } else {
                    Ok(())
                }
            }
            Rule::Let(s, t, b) => {
                let v = self.value(t, frame);
                self.stack[frame.base + *s as usize] = v;
                self.at(0, b, frame, out)
            }
            Rule::Forall(s, u, test, body) => {
                let u = self.p.universes[*u as usize];
                self.in_chunks(u.size, out, |worker, from, to, set| {
                    worker.span(*s, u, test, body, from, to, frame, set)
                })
            }
            Rule::Choose(s, u, test, body, none) => {
                let u = self.p.universes[*u as usize];
                let slot = frame.base + *s as usize;
                let pick = if !self.scripted {
                    0
                } else {
                    // candidates are counted only where a line may pick another than the first
                    match self.script.exact.get(&(self.step, self.place.clone())) {
                        Some(k) => *k,
                        None => *self.script.every.get(&self.place).unwrap_or(&0),
                    }
                };
                let mut found = None;
                if pick == 0 {
                    for k in 0..u.size {
                        self.stack[slot] = u.low + k;
                        if test.as_ref().map_or(true, |t| self.value(t, frame) == TRUE) {
                            found = Some(u.low + k);
                            break;
                        }
                    }
                } else {
                    let mut all = Vec::new();
                    for k in 0..u.size {
                        self.stack[slot] = u.low + k;
                        if test.as_ref().map_or(true, |t| self.value(t, frame) == TRUE) {
                            all.push(u.low + k);
                        }
                    }
                    if !all.is_empty() {
                        found = Some(all[(pick % all.len() as u64) as usize]);
                    }
                }
                match (found, none) {
                    (Some(v), _) => {
                        self.stack[slot] = v;
                        self.at(0, body, frame, out)
                    }
                    (None, Some(q)) => self.at(1, q, frame, out),
                    _ => Ok(()),
                }
            }
            Rule::Seq(parts) => {
                let (mut so_far, mut part) = (self.spare(), self.spare());
                let mut saved = Vec::new();
                let mut end = Ok(());
                for (k, p) in parts.iter().enumerate() {
                    end = self.at(k as u64, p, frame, &mut part);
                    if end.is_err() {
                        break;
                    }
                    self.join(&mut so_far, &mut part, &mut saved);
                    if so_far.bad {
                        break;
                    }
                }
                self.finish(so_far, part, saved, end, out)
            }
            Rule::Iterate(test, body) => {
                let (mut so_far, mut part) = (self.spare(), self.spare());
                let mut saved = Vec::new();
                let mut end = Ok(());
                let mut turn = 0;
                loop {
                    if turn == self.turns {
                        end = Err(self.place.clone());
                        break;
                    }
                    self.place.push(turn);
                    match test {
                        None => end = self.rule(body, frame, &mut part),
                        Some(c) => {
                            if self.value(c, frame) == TRUE {
                                end = self.at(0, body, frame, &mut part);
                            }
                        }
                    }
                    self.place.pop();
                    if end.is_err() || part.list.is_empty() {
                        break;
                    }
                    self.join(&mut so_far, &mut part, &mut saved);
                    if so_far.bad {
                        break;
                    }
                    turn += 1;
                }
                self.finish(so_far, part, saved, end, out)
            }
        }
    }
}
