//! Trees with numbers in place of names, and the faults of a text.
use crate::parser::{ConstantTree, Item, Name, RuleTree, Table, TermTree};
use crate::tokens::{Kind, Names, Refused};
use crate::values::{number, Value, ELEMENT, UNDEF};
use std::collections::HashMap;

pub enum Term {
    C(Value),
    Local(u32),
    Param(u32),
    Answer,
    F0(u32),
    F1(u32, Box<Term>),
    Function(u32, Box<[Term]>),
    Derived(u32, Box<[Term]>),
    Bin(Kind, Box<(Term, Term)>),
    Chain(Box<Term>, Box<[(Kind, Term)]>),
    Not(Box<Term>),
    Negative(Box<Term>),
    Quantifier(bool, u32, u32, Box<Term>),
}

pub enum Rule {
    Skip,
    Set0(u32, Term),
    Set(u32, Box<[Term]>, Term),
    Call(u32, Box<[Term]>),
    Into(u32, Box<[Term]>, u32, Box<[Term]>),
    SetAnswer(Term),
    Par(Box<[Rule]>),
    Seq(Box<[Rule]>),
    If(Term, Box<Rule>, Option<Box<Rule>>),
    Let(u32, Term, Box<Rule>),
    Forall(u32, u32, Option<Term>, Box<Rule>),
    Choose(u32, u32, Option<Term>, Box<Rule>, Option<Box<Rule>>),
    Iterate(Option<Term>, Box<Rule>),
}

#[derive(Clone, Copy, PartialEq)]
pub enum Declaration {
    No,
    Builtin,
    Universe(u32),
    Element(u32),
    Function(u32),
    Derived(u32),
    Rule(u32),
}

#[derive(Clone, Copy)]
pub struct Universe {
    pub low: Value,
    pub size: u64,
    pub over: bool,
}

impl Universe {
    #[inline(always)]
    pub fn position(&self, v: Value) -> Option<u64> {
        let p = v.wrapping_sub(self.low);
        if p < self.size {
            Some(p)
        } else {
            None
        }
    }
}

pub struct Function {
    pub name: u32,
    pub controlled: bool,
    pub domain: Vec<u32>,
    pub base: u32,
    pub size: u32,
    pub opening: Vec<Value>,
}

pub struct Program {
    pub universes: Vec<Universe>,
    pub functions: Vec<Function>,
    pub derived_functions: Vec<(Term, u32)>,
    pub rules: Vec<(Rule, u32)>,
    pub main: u32,
    pub count: usize,
    pub stray: Vec<bool>,
    pub elements: Vec<u32>,
    pub most: i64,
}

#[derive(Clone, Copy, PartialEq)]
pub enum Binding {
    No,
    Local(u32),
    Param(u32),
}

pub struct Resolver {
    pub declared: Vec<Declaration>,
    pub bind: Vec<Binding>,
    pub universes: Vec<Universe>,
    pub arity: Vec<u32>,
    pub fun_controlled: Vec<bool>,
    pub fun_base: Vec<u32>,
    pub der_arity: Vec<u32>,
    pub rule_arity: Vec<u32>,
    pub rule_result: Vec<bool>,
    pub least: Option<(u32, u32)>,
    pub next: u32,
    pub most_slots: u32,
    pub edges: Vec<u32>,
    pub derived: bool,
}

impl Resolver {
    pub fn fault(&mut self, at: u32, n: u32) {
        if self.least.map_or(true, |l| (at, n) < l) {
            self.least = Some((at, n));
        }
    }
    pub fn slot(&mut self) -> u32 {
        let s = self.next;
        self.next += 1;
        self.most_slots = self.most_slots.max(self.next);
        s
    }
    pub fn universe(&mut self, n: Name) -> u32 {
        match self.declared[n.id as usize] {
            Declaration::Universe(u) => u,
            _ => {
                self.fault(n.at, 9);
                0
            }
        }
    }
    pub fn count(&mut self, n: Name, has: u32, given: usize) {
        if has as usize != given {
            self.fault(n.at, 10);
        }
    }
    pub fn es(&mut self, v: &[TermTree]) -> Box<[Term]> {
        v.iter().map(|e| self.e(e)).collect()
    }
    pub fn with_local<X>(&mut self, x: Name, f: impl FnOnce(&mut Self, u32) -> X) -> X {
        let s = self.slot();
        let old = std::mem::replace(&mut self.bind[x.id as usize], Binding::Local(s));
        let out = f(self, s);
        self.bind[x.id as usize] = old;
        self.next -= 1;
        out
    }
    pub fn e(&mut self, e: &TermTree) -> Term {
        match e {
            TermTree::Literal(v) => Term::C(*v),
            TermTree::Answer(at) => {
                if self.derived {
                    self.fault(*at, 17);
                }
                Term::Answer
            }
            TermTree::Not(x) => Term::Not(Box::new(self.e(x))),
            TermTree::Negative(x) => Term::Negative(Box::new(self.e(x))),
            TermTree::Chain(a, rest) => {
                let a = self.e(a);
                if rest.len() == 1 {
                    let b = self.e(&rest[0].1);
                    return Term::Bin(rest[0].0, Box::new((a, b)));
                }
                Term::Chain(
                    Box::new(a),
                    rest.iter().map(|(k, x)| (*k, self.e(x))).collect(),
                )
            }
            TermTree::Quantifier(every, x, u, t) => {
                let u = self.universe(*u);
                self.with_local(*x, |me, s| {
                    Term::Quantifier(*every, s, u, Box::new(me.e(t)))
                })
            }
            TermTree::Ref(n, args) => {
                match self.bind[n.id as usize] {
                    Binding::Local(s) => {
                        self.count(*n, 0, args.len());
                        self.es(args);
                        return Term::Local(s);
                    }
                    Binding::Param(p) => {
                        self.count(*n, 0, args.len());
                        self.es(args);
                        return Term::Param(p);
                    }
                    Binding::No => {}
                }
                match self.declared[n.id as usize] {
                    Declaration::Element(k) => {
                        self.count(*n, 0, args.len());
                        self.es(args);
                        Term::C(ELEMENT + k as u64)
                    }
                    Declaration::Function(f) => {
                        self.count(*n, self.arity[f as usize], args.len());
                        let mut v = self.es(args).into_vec();
                        match v.len() {
                            0 if self.fun_controlled[f as usize] => {
                                Term::F0(self.fun_base[f as usize])
                            }
                            1 => Term::F1(f, Box::new(v.pop().unwrap())),
                            _ => Term::Function(f, v.into()),
                        }
                    }
                    Declaration::Derived(d) => {
                        if self.derived {
                            self.edges.push(d);
                        }
                        self.count(*n, self.der_arity[d as usize], args.len());
                        Term::Derived(d, self.es(args))
                    }
                    _ => {
                        self.fault(n.at, 9);
                        self.es(args);
                        Term::C(UNDEF)
                    }
                }
            }
        }
    }
    pub fn target(&mut self, n: Name, args: &[TermTree]) -> (u32, Box<[Term]>) {
        let mut f = 0;
        if self.bind[n.id as usize] != Binding::No {
            self.fault(n.at, 11);
        } else {
            match self.declared[n.id as usize] {
                Declaration::No => self.fault(n.at, 9),
                Declaration::Function(k) if self.fun_controlled[k as usize] => {
                    f = k;
                    self.count(n, self.arity[k as usize], args.len());
                }
                _ => self.fault(n.at, 11),
            }
        }
        (f, self.es(args))
    }
    pub fn called(&mut self, n: Name, args: &[TermTree], plain: bool) -> (u32, Box<[Term]>) {
        let mut r = 0;
        if let Declaration::Rule(k) = self.declared[n.id as usize] {
            r = k;
            self.edges.push(k);
            self.count(n, self.rule_arity[k as usize], args.len());
            if plain && self.rule_result[k as usize] {
                self.fault(n.at, 17);
            }
        } else {
            self.fault(n.at, 9);
        }
        (r, self.es(args))
    }
    pub fn b(&mut self, s: &RuleTree) -> Box<Rule> {
        Box::new(self.s(s))
    }
    pub fn s(&mut self, s: &RuleTree) -> Rule {
        match s {
            RuleTree::Skip => Rule::Skip,
            RuleTree::Set(n, args, v) => {
                let (f, a) = self.target(*n, args);
                let v = self.e(v);
                if a.is_empty() {
                    Rule::Set0(self.fun_base.get(f as usize).copied().unwrap_or(0), v)
                } else {
                    Rule::Set(f, a, v)
                }
            }
            RuleTree::SetAnswer(v) => Rule::SetAnswer(self.e(v)),
            RuleTree::Call(n, args) => {
                let (r, a) = self.called(*n, args, true);
                Rule::Call(r, a)
            }
            RuleTree::Into(n, args, r, terms) => {
                let (f, a) = self.target(*n, args);
                let (r, t) = self.called(*r, terms, false);
                Rule::Into(f, a, r, t)
            }
            RuleTree::Par(v) => Rule::Par(v.iter().map(|x| self.s(x)).collect()),
            RuleTree::Seq(v) => Rule::Seq(v.iter().map(|x| self.s(x)).collect()),
            RuleTree::If(c, y, n) => {
                let c = self.e(c);
                let y = self.b(y);
                let n = n.as_ref().map(|x| self.b(x));
                Rule::If(c, y, n)
            }
            RuleTree::Let(x, v, b) => {
                let v = self.e(v);
                self.with_local(*x, |me, s| Rule::Let(s, v, me.b(b)))
            }
            RuleTree::Forall(x, u, t, b) => {
                let u = self.universe(*u);
                self.with_local(*x, |me, s| {
                    let t = t.as_ref().map(|t| me.e(t));
                    Rule::Forall(s, u, t, me.b(b))
                })
            }
            RuleTree::Choose(x, u, t, b, none) => {
                let u = self.universe(*u);
                let (s, t, b) = self.with_local(*x, |me, s| {
                    let t = t.as_ref().map(|t| me.e(t));
                    (s, t, me.b(b))
                });
                let none = none.as_ref().map(|x| self.b(x));
                Rule::Choose(s, u, t, b, none)
            }
            RuleTree::Iterate(b) => Rule::Iterate(None, self.b(b)),
            RuleTree::While(c, b) => {
                let c = self.e(c);
                Rule::Iterate(Some(c), self.b(b))
            }
        }
    }
    pub fn params(&mut self, ps: &[Name], by_name: bool) {
        for (k, p) in ps.iter().enumerate() {
            if self.bind[p.id as usize] != Binding::No {
                self.fault(p.at, 8);
            }
            self.bind[p.id as usize] = if by_name {
                Binding::Param(k as u32)
            } else {
                Binding::Local(k as u32)
            };
        }
        self.next = if by_name { 0 } else { ps.len() as u32 };
        self.most_slots = self.next;
        self.edges.clear();
    }
    pub fn leave(&mut self, ps: &[Name]) -> Vec<u32> {
        for p in ps {
            self.bind[p.id as usize] = Binding::No;
        }
        self.edges.sort_unstable();
        self.edges.dedup();
        self.edges.clone()
    }
}

/// Calls `fault` with each node on a cycle (true) and each of a rank above 16 (false).
pub fn graph(edges: &[Vec<u32>], mut fault: impl FnMut(usize, bool)) {
    struct G<'e> {
        e: &'e [Vec<u32>],
        number: Vec<u32>,
        low: Vec<u32>,
        open: Vec<u32>,
        is_open: Vec<bool>,
        rank: Vec<i64>, // -1 where a cycle is reached
        cycle: Vec<bool>,
        next: u32,
    }
    fn go(g: &mut G, v: usize) {
        g.next += 1;
        g.number[v] = g.next;
        g.low[v] = g.next;
        g.open.push(v as u32);
        g.is_open[v] = true;
        for k in 0..g.e[v].len() {
            let w = g.e[v][k] as usize;
            if g.number[w] == 0 {
                go(g, w);
                g.low[v] = g.low[v].min(g.low[w]);
            } else if g.is_open[w] {
                g.low[v] = g.low[v].min(g.number[w]);
            }
        }
        if g.low[v] == g.number[v] {
            let from = g.open.iter().rposition(|w| *w as usize == v).unwrap();
            let part: Vec<u32> = g.open.drain(from..).collect();
            let cyclic = part.len() > 1 || g.e[v].contains(&(v as u32));
            for w in &part {
                g.is_open[*w as usize] = false;
                g.cycle[*w as usize] = cyclic;
                g.rank[*w as usize] = -1;
            }
            if !cyclic {
                let mut r = 0;
                for w in &g.e[v] {
                    let x = g.rank[*w as usize];
                    if x < 0 {
                        r = -1;
                        break;
                    }
                    r = r.max(x + 1);
                }
                g.rank[v] = r;
            }
        }
    }
    let n = edges.len();
    let mut g = G {
        e: edges,
        number: vec![0; n],
        low: vec![0; n],
        open: vec![],
        is_open: vec![false; n],
        rank: vec![0; n],
        cycle: vec![false; n],
        next: 0,
    };
    for v in 0..n {
        if g.number[v] == 0 {
            go(&mut g, v);
        }
    }
    for v in 0..n {
        if g.cycle[v] {
            fault(v, true);
        }
        if g.rank[v] > 16 {
            fault(v, false);
        }
    }
}

pub fn resolve(
    items: &[Item],
    names: &Names,
    length: u32,
    most: i64,
    most_locations: u64,
) -> Result<Program, Refused> {
    let n = names.text.len();
    let mut r = Resolver {
        declared: vec![Declaration::No; n],
        bind: vec![Binding::No; n],
        universes: vec![],
        arity: vec![],
        fun_controlled: vec![],
        fun_base: vec![],
        der_arity: vec![],
        rule_arity: vec![],
        rule_result: vec![],
        least: None,
        next: 0,
        most_slots: 0,
        edges: vec![],
        derived: false,
    };
    for b in [&b"NUMBER"[..], b"BOOLEAN", b"ANY"] {
        if let Some(k) = names.ids.get(b) {
            r.declared[*k as usize] = Declaration::Builtin;
        }
    }
    let mut elements = Vec::new();
    let mut live = vec![true; items.len()];
    // declarations
    for (k, item) in items.iter().enumerate() {
        let name = match item {
            Item::Init(_) => continue,
            Item::Enum(n, _) | Item::Universe(n, _, _) | Item::Derived(n, _, _) => *n,
            Item::Function { name, .. } | Item::Rule { name, .. } => *name,
        };
        let fresh = r.declared[name.id as usize] == Declaration::No;
        live[k] = fresh;
        if !fresh {
            r.fault(name.at, 8);
        } else {
            r.declared[name.id as usize] = match item {
                Item::Enum(..) | Item::Universe(..) => {
                    Declaration::Universe(r.universes.len() as u32)
                }
                Item::Function {
                    controlled, domain, ..
                } => {
                    r.arity.push(domain.len() as u32);
                    r.fun_controlled.push(*controlled);
                    Declaration::Function(r.arity.len() as u32 - 1)
                }
                Item::Derived(_, ps, _) => {
                    r.der_arity.push(ps.len() as u32);
                    Declaration::Derived(r.der_arity.len() as u32 - 1)
                }
                Item::Rule { params, result, .. } => {
                    r.rule_arity.push(params.len() as u32);
                    r.rule_result.push(*result);
                    Declaration::Rule(r.rule_arity.len() as u32 - 1)
                }
                Item::Init(_) => Declaration::No,
            };
        }
        let size = match item {
            Item::Enum(_, es) => {
                let before = elements.len();
                for e in es {
                    if r.declared[e.id as usize] == Declaration::No {
                        r.declared[e.id as usize] = Declaration::Element(elements.len() as u32);
                        elements.push(e.id);
                    } else {
                        r.fault(e.at, 8);
                    }
                }
                Some((ELEMENT + before as u64, (elements.len() - before) as u64))
            }
            Item::Universe(_, a, b) => Some((number(*a), (b - a + 1).max(0) as u64)),
            _ => None,
        };
        if let (true, Some((low, size))) = (fresh, size) {
            let over = r.universes.len() >= 64 || size > 4096;
            if over {
                r.fault(name.at, 15);
            }
            r.universes.push(Universe { low, size, over });
        }
    }
    // functions first: the numbers of locations are needed in terms
    let mut functions = Vec::new();
    let (mut kinds, mut locations, mut lists) = (0u64, 0u64, 0u64);
    for (k, item) in items.iter().enumerate() {
        if !live[k] {
            continue;
        }
        let name = match item {
            Item::Derived(name, _, _) => name,
            Item::Function { name, .. } => name,
            _ => continue,
        };
        kinds += 1;
        if kinds > 256 {
            r.fault(name.at, 15);
        }
        if let Item::Function {
            controlled,
            domain,
            codomain,
            table,
            ..
        } = item
        {
            let mut size = if domain.len() > 4 { 0 } else { 1u64 };
            let mut known = Vec::new();
            for d in domain {
                let u = r.universe(*d);
                let found = matches!(r.declared[d.id as usize], Declaration::Universe(_));
                known.push(if found { Some(u) } else { None });
                size = size.saturating_mul(if found && !r.universes[u as usize].over {
                    r.universes[u as usize].size
                } else {
                    0
                });
            }
            let base = locations;
            let over = if *controlled {
                locations += size + 1;
                locations > most_locations
            } else {
                lists += size;
                lists > 16384
            };
            if over || domain.len() > 4 {
                r.fault(name.at, 15);
            }
            if let Some(c) = codomain {
                if !matches!(
                    r.declared[c.id as usize],
                    Declaration::Builtin | Declaration::Universe(_)
                ) {
                    r.fault(c.at, 9);
                }
            }
            let r = &mut r;
            let mut constant = |c: &ConstantTree| match c {
                ConstantTree::Literal(v) => Some(*v),
                ConstantTree::Element(n) => match r.declared[n.id as usize] {
                    Declaration::Element(k) => Some(ELEMENT + k as u64),
                    _ => {
                        r.fault(n.at, 9);
                        None
                    }
                },
            };
            let small = size <= 65536 && !over;
            let mut opening = Vec::new();
            match table {
                Table::No => opening = vec![UNDEF; if small { size as usize } else { 0 }],
                Table::All(c) => {
                    let v = constant(c).unwrap_or(UNDEF);
                    opening = vec![v; if small { size as usize } else { 0 }];
                }
                Table::List(es) => {
                    if small {
                        opening = vec![UNDEF; size as usize];
                    }
                    let mut seen: HashMap<Vec<Value>, ()> = HashMap::with_capacity(es.len());
                    let mut whole = Vec::new();
                    for (at, args, value) in es {
                        let mut vs = Vec::with_capacity(args.len());
                        let mut all = true;
                        for a in args {
                            match constant(a) {
                                Some(v) => vs.push(v),
                                None => all = false,
                            }
                        }
                        let value = constant(value);
                        if !all || value.is_none() {
                            continue;
                        }
                        whole.push((*at, vs, value.unwrap()));
                    }
                    for (at, vs, value) in whole {
                        // a universe that is too great still has all its elements here
                        let mut fits = vs.len() == domain.len();
                        let mut index = 0u64;
                        if fits {
                            for (v, u) in vs.iter().zip(&known) {
                                if let Some(u) = u {
                                    let u = &r.universes[*u as usize];
                                    match u.position(*v) {
                                        Some(p) => {
                                            index = index.wrapping_mul(u.size).wrapping_add(p)
                                        }
                                        None => fits = false,
                                    }
                                }
                            }
                        }
                        let again = seen.insert(vs, ()).is_some();
                        if !fits || again {
                            r.fault(at, 16);
                        } else if (index as usize) < opening.len() {
                            opening[index as usize] = value;
                        }
                    }
                }
            }
            let domain = known.into_iter().map(|u| u.unwrap_or(0)).collect();
            r.fun_base.push(base.min(1 << 30) as u32);
            functions.push(Function {
                name: name.id,
                controlled: *controlled,
                domain,
                base: base.min(1 << 30) as u32,
                size: size.min(1 << 30) as u32,
                opening,
            });
        }
    }
    // bodies
    let mut derived_functions = Vec::new();
    let mut rules = Vec::new();
    let (mut der_edges, mut rule_edges) = (Vec::new(), Vec::new());
    let (mut der_at, mut rule_at) = (Vec::new(), Vec::new());
    let mut main = None;
    let mut inits = 0;
    for (k, item) in items.iter().enumerate() {
        match item {
            Item::Init(n) => {
                inits += 1;
                let mut good = inits == 1;
                match r.declared[n.id as usize] {
                    Declaration::Rule(x) => {
                        good &= r.rule_arity[x as usize] == 0;
                        main = Some(x);
                        if r.rule_result[x as usize] {
                            r.fault(n.at, 17);
                        }
                    }
                    _ => good = false,
                }
                if !good {
                    r.fault(n.at, 14);
                }
            }
            Item::Derived(name, ps, body) if live[k] => {
                r.params(ps, false);
                r.derived = true;
                let t = r.e(body);
                r.derived = false;
                der_edges.push(r.leave(ps));
                der_at.push(name.at);
                derived_functions.push((t, r.most_slots));
            }
            Item::Rule {
                name, params, body, ..
            } if live[k] => {
                if rules.len() >= 256 {
                    r.fault(name.at, 15);
                }
                r.params(params, true);
                let s = r.s(body);
                rule_edges.push(r.leave(params));
                rule_at.push(name.at);
                rules.push((s, r.most_slots));
            }
            _ => {}
        }
    }
    if inits == 0 {
        r.fault(length, 14);
    }
    graph(&rule_edges, |v, c| {
        r.fault(rule_at[v], if c { 12 } else { 15 })
    });
    graph(&der_edges, |v, c| {
        r.fault(der_at[v], if c { 13 } else { 15 })
    });
    if let Some((at, n)) = r.least {
        return Err(Refused::Check(n, at));
    }
    let mut stray = vec![false; locations as usize];
    for f in &functions {
        if f.controlled {
            stray[(f.base + f.size) as usize] = true;
        }
    }
    Ok(Program {
        universes: r.universes,
        functions,
        derived_functions,
        rules,
        main: main.unwrap(),
        count: locations as usize,
        stray,
        elements,
        most,
    })
}
