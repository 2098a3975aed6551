//! Trees with names, from tokens.
use crate::tokens::{Kind, Refused, Token};
use crate::values::{number, Value, FALSE, TRUE, UNDEF};

#[derive(Clone, Copy)]
pub struct Name {
    pub id: u32,
    pub at: u32,
}

pub enum TermTree {
    Literal(Value),
    Ref(Name, Vec<TermTree>),
    Chain(Box<TermTree>, Vec<(Kind, TermTree)>),
    Not(Box<TermTree>),
    Negative(Box<TermTree>),
    Quantifier(bool, Name, Name, Box<TermTree>),
    Answer(u32),
}

pub enum RuleTree {
    Skip,
    Set(Name, Vec<TermTree>, TermTree),
    Call(Name, Vec<TermTree>),
    Par(Vec<RuleTree>),
    Seq(Vec<RuleTree>),
    If(TermTree, Box<RuleTree>, Option<Box<RuleTree>>),
    Let(Name, TermTree, Box<RuleTree>),
    Forall(Name, Name, Option<TermTree>, Box<RuleTree>),
    Choose(
        Name,
        Name,
        Option<TermTree>,
        Box<RuleTree>,
        Option<Box<RuleTree>>,
    ),
    Iterate(Box<RuleTree>),
    While(TermTree, Box<RuleTree>),
    Into(Name, Vec<TermTree>, Name, Vec<TermTree>),
    SetAnswer(TermTree),
}

pub enum ConstantTree {
    Literal(Value),
    Element(Name),
}

pub enum Table {
    No,
    All(ConstantTree),
    List(Vec<(u32, Vec<ConstantTree>, ConstantTree)>),
}

pub enum Item {
    Init(Name),
    Enum(Name, Vec<Name>),
    Universe(Name, i64, i64),
    Function {
        name: Name,
        controlled: bool,
        domain: Vec<Name>,
        codomain: Option<Name>,
        table: Table,
    },
    Derived(Name, Vec<Name>, TermTree),
    Rule {
        name: Name,
        params: Vec<Name>,
        body: RuleTree,
        result: bool,
    },
}

pub type Parsed<Tree> = Result<Tree, Refused>;

pub struct Parser<'p> {
    pub t: &'p [Token],
    pub i: usize,
    pub depth: u32,
    pub saw_result: bool,
}

impl<'p> Parser<'p> {
    #[inline]
    pub fn k(&self) -> Kind {
        self.t[self.i].k
    }
    pub fn no<Term>(&self) -> Parsed<Term> {
        let t = self.t[self.i];
        Err(if t.k == Kind::End {
            Refused::Read(6, None)
        } else {
            Refused::Read(5, Some(t.at))
        })
    }
    #[inline]
    pub fn opt(&mut self, k: Kind) -> bool {
        if self.k() != k {
            return false;
        }
        self.i += 1;
        true
    }
    #[inline]
    pub fn need(&mut self, k: Kind) -> Parsed<()> {
        if self.opt(k) {
            Ok(())
        } else {
            self.no()
        }
    }
    pub fn deeper(&mut self) -> Parsed<()> {
        if self.depth >= 64 {
            return Err(Refused::Read(7, Some(self.t[self.i].at)));
        }
        self.depth += 1;
        self.i += 1;
        Ok(())
    }
    pub fn leave(&mut self, k: Kind) -> Parsed<()> {
        self.need(k)?;
        self.depth -= 1;
        Ok(())
    }
    pub fn name(&mut self) -> Parsed<Name> {
        let t = self.t[self.i];
        if t.k != Kind::Name {
            return self.no();
        }
        self.i += 1;
        Ok(Name {
            id: t.v as u32,
            at: t.at,
        })
    }
    pub fn list<Term>(&mut self, one: impl Fn(&mut Self) -> Parsed<Term>) -> Parsed<Vec<Term>> {
        if self.k() != Kind::OpenParenthesis {
            return Ok(Vec::new());
        }
        self.deeper()?;
        let mut v = vec![one(self)?];
        while self.opt(Kind::Comma) {
            v.push(one(self)?);
        }
        self.leave(Kind::CloseParenthesis)?;
        Ok(v)
    }
    pub fn int(&mut self) -> Parsed<i64> {
        let minus = self.opt(Kind::Minus);
        let t = self.t[self.i];
        self.need(Kind::Num)?;
        Ok(if minus { -t.v } else { t.v })
    }
    pub fn lit(&mut self) -> Option<Value> {
        let v = match self.k() {
            Kind::True => TRUE,
            Kind::False => FALSE,
            Kind::Undef => UNDEF,
            Kind::Num => number(self.t[self.i].v),
            _ => return None,
        };
        self.i += 1;
        Some(v)
    }
    pub fn cn(&mut self) -> Parsed<ConstantTree> {
        if self.k() == Kind::Minus {
            return Ok(ConstantTree::Literal(number(self.int()?)));
        }
        match self.lit() {
            Some(v) => Ok(ConstantTree::Literal(v)),
            None => Ok(ConstantTree::Element(self.name()?)),
        }
    }
    pub fn spec(&mut self) -> Parsed<Vec<Item>> {
        self.need(Kind::CoreAsm)?;
        self.name()?;
        let mut items = Vec::new();
        loop {
            let k = self.k();
            match k {
                Kind::End => return Ok(items),
                Kind::Use
                | Kind::Init
                | Kind::Enum
                | Kind::Universe
                | Kind::Function
                | Kind::Derived
                | Kind::Rule => self.i += 1,
                _ => return self.no(),
            }
            match k {
                Kind::Use => {
                    self.name()?;
                }
                Kind::Init => items.push(Item::Init(self.name()?)),
                Kind::Enum => {
                    let name = self.name()?;
                    self.need(Kind::Eq)?;
                    self.need(Kind::OpenBrace)?;
                    let mut v = vec![self.name()?];
                    while self.opt(Kind::Comma) {
                        v.push(self.name()?);
                    }
                    self.need(Kind::CloseBrace)?;
                    items.push(Item::Enum(name, v));
                }
                Kind::Universe => {
                    let name = self.name()?;
                    self.need(Kind::Eq)?;
                    let a = self.int()?;
                    self.need(Kind::Dots)?;
                    items.push(Item::Universe(name, a, self.int()?));
                }
                Kind::Function => {
                    let controlled = self.opt(Kind::Controlled);
                    if !controlled {
                        self.need(Kind::Static)?;
                    }
                    let name = self.name()?;
                    let mut domain = Vec::new();
                    let mut codomain = None;
                    if self.opt(Kind::Colon) {
                        if self.k() != Kind::Arrow {
                            domain.push(self.name()?);
                            while self.opt(Kind::Star) {
                                domain.push(self.name()?);
                            }
                        }
                        if self.opt(Kind::Arrow) {
                            codomain = Some(self.name()?);
                        }
                    }
                    let mut table = Table::No;
                    if self.opt(Kind::Initially) {
                        if self.opt(Kind::OpenBrace) {
                            let mut v = Vec::new();
                            loop {
                                let at = self.t[self.i].at;
                                if self.k() != Kind::OpenParenthesis {
                                    return self.no();
                                }
                                let args = self.list(Self::cn)?;
                                self.need(Kind::Arrow)?;
                                v.push((at, args, self.cn()?));
                                if !self.opt(Kind::Comma) {
                                    break;
                                }
                            }
                            self.need(Kind::CloseBrace)?;
                            table = Table::List(v);
                        } else {
                            table = Table::All(self.cn()?);
                        }
                    }
                    items.push(Item::Function {
                        name,
                        controlled,
                        domain,
                        codomain,
                        table,
                    });
                }
                Kind::Derived => {
                    let name = self.name()?;
                    let params = self.list(Self::name)?;
                    self.need(Kind::Eq)?;
                    items.push(Item::Derived(name, params, self.expr(0)?));
                }
                _ => {
                    let name = self.name()?;
                    let params = self.list(Self::name)?;
                    self.need(Kind::Eq)?;
                    self.saw_result = false;
                    let body = self.stmt()?;
                    items.push(Item::Rule {
                        name,
                        params,
                        body,
                        result: self.saw_result,
                    });
                }
            }
        }
    }
    pub fn starts(&self) -> bool {
        use Kind::*;
        matches!(
            self.k(),
            Name | Skip | Par | Seq | If | Let | Forall | Choose | Iterate | While | Result
        )
    }
    pub fn block(&mut self, end: Kind) -> Parsed<Vec<RuleTree>> {
        self.deeper()?;
        let mut v = vec![self.stmt()?];
        while self.starts() {
            v.push(self.stmt()?);
        }
        self.leave(end)?;
        Ok(v)
    }
    pub fn head(&mut self) -> Parsed<(Name, Name, Option<TermTree>)> {
        self.deeper()?;
        let x = self.name()?;
        self.need(Kind::In)?;
        let u = self.name()?;
        let test = if self.opt(Kind::With) {
            Some(self.expr(0)?)
        } else {
            None
        };
        self.need(Kind::Do)?;
        Ok((x, u, test))
    }
    pub fn boxed(&mut self) -> Parsed<Box<RuleTree>> {
        Ok(Box::new(self.stmt()?))
    }
    pub fn stmt(&mut self) -> Parsed<RuleTree> {
        if !self.starts() {
            return self.no();
        }
        Ok(match self.k() {
            Kind::Skip => {
                self.i += 1;
                RuleTree::Skip
            }
            Kind::Par => RuleTree::Par(self.block(Kind::EndPar)?),
            Kind::Seq => RuleTree::Seq(self.block(Kind::EndSeq)?),
            Kind::If => {
                self.deeper()?;
                let c = self.expr(0)?;
                self.need(Kind::Then)?;
                let yes = self.boxed()?;
                let no = if self.opt(Kind::Else) {
                    Some(self.boxed()?)
                } else {
                    None
                };
                self.leave(Kind::EndIf)?;
                RuleTree::If(c, yes, no)
            }
            Kind::Let => {
                self.deeper()?;
                let x = self.name()?;
                self.need(Kind::Eq)?;
                let v = self.expr(0)?;
                self.need(Kind::In)?;
                let b = self.boxed()?;
                self.leave(Kind::EndLet)?;
                RuleTree::Let(x, v, b)
            }
            Kind::Forall => {
                let (x, u, t) = self.head()?;
                let b = self.boxed()?;
                self.leave(Kind::EndForall)?;
                RuleTree::Forall(x, u, t, b)
            }
            Kind::Choose => {
                let (x, u, t) = self.head()?;
                let b = self.boxed()?;
                let none = if self.opt(Kind::IfNone) {
                    Some(self.boxed()?)
                } else {
                    None
                };
                self.leave(Kind::EndChoose)?;
                RuleTree::Choose(x, u, t, b, none)
            }
            Kind::Iterate => {
                self.deeper()?;
                let b = self.boxed()?;
                self.leave(Kind::EndIterate)?;
                RuleTree::Iterate(b)
            }
            Kind::While => {
                self.deeper()?;
                let c = self.expr(0)?;
                self.need(Kind::Do)?;
                let b = self.boxed()?;
                self.leave(Kind::EndWhile)?;
                RuleTree::While(c, b)
            }
            Kind::Result => {
                self.i += 1;
                self.saw_result = true;
                self.need(Kind::Becomes)?;
                RuleTree::SetAnswer(self.expr(0)?)
            }
            _ => {
                let f = self.name()?;
                let args = self.list(|p| p.expr(0))?;
                if self.opt(Kind::Becomes) {
                    RuleTree::Set(f, args, self.expr(0)?)
                } else if self.opt(Kind::Into) {
                    let r = self.name()?;
                    RuleTree::Into(f, args, r, self.list(|p| p.expr(0))?)
                } else {
                    RuleTree::Call(f, args)
                }
            }
        })
    }
    // levels: 0 or, 1 and, 2 not, 3 comparison, 4 sum, 5 product, 6 minus and primaries
    pub fn expr(&mut self, level: u8) -> Parsed<TermTree> {
        if level == 2 && self.opt(Kind::Not) {
            return Ok(TermTree::Not(Box::new(self.expr(3)?)));
        }
        if level == 6 {
            if self.opt(Kind::Minus) {
                return Ok(TermTree::Negative(Box::new(self.primary()?)));
            }
            return self.primary();
        }
        let first = self.expr(level + 1)?;
        if self.level() != level {
            return Ok(first);
        }
        let mut rest = Vec::new();
        while self.level() == level {
            let k = self.k();
            self.i += 1;
            rest.push((k, self.expr(level + 1)?));
            if level == 3 {
                break;
            }
        }
        Ok(TermTree::Chain(Box::new(first), rest))
    }
    #[inline]
    pub fn level(&self) -> u8 {
        match self.k() {
            Kind::Or => 0,
            Kind::And => 1,
            Kind::Eq | Kind::Ne | Kind::Lt | Kind::Le | Kind::Gt | Kind::Ge => 3,
            Kind::Plus | Kind::Minus => 4,
            Kind::Star | Kind::Div | Kind::Mod => 5,
            _ => 9,
        }
    }
    pub fn primary(&mut self) -> Parsed<TermTree> {
        if let Some(v) = self.lit() {
            return Ok(TermTree::Literal(v));
        }
        match self.k() {
            Kind::Name => {
                let n = self.name()?;
                Ok(TermTree::Ref(n, self.list(|p| p.expr(0))?))
            }
            Kind::Result => {
                self.saw_result = true;
                let at = self.t[self.i].at;
                self.i += 1;
                Ok(TermTree::Answer(at))
            }
            Kind::OpenParenthesis => {
                self.deeper()?;
                let k = self.k();
                let e = if k == Kind::Exists || k == Kind::Forall {
                    self.i += 1;
                    let x = self.name()?;
                    self.need(Kind::In)?;
                    let u = self.name()?;
                    self.need(if k == Kind::Exists {
                        Kind::With
                    } else {
                        Kind::Holds
                    })?;
                    TermTree::Quantifier(k == Kind::Forall, x, u, Box::new(self.expr(0)?))
                } else {
                    self.expr(0)?
                };
                self.leave(Kind::CloseParenthesis)?;
                Ok(e)
            }
            _ => self.no(),
        }
    }
}
