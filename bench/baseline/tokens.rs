//! Tokens of a text.
use std::collections::HashMap;

#[derive(Clone, Copy, PartialEq, Eq, Debug)]
#[rustfmt::skip]
pub enum Kind {
    Name, Num, OpenParenthesis, CloseParenthesis, OpenBrace, CloseBrace, Comma, Colon, Becomes, Eq, Ne, Lt, Le, Gt, Ge, Into, Plus, Minus, Star, Arrow, Dots,
    CoreAsm, Use, Init, Enum, Universe, Function, Controlled, Static, Initially, Derived, Rule, Skip, Par, EndPar, Seq,
    EndSeq, If, Then, Else, EndIf, Let, In, EndLet, Forall, With, Do, EndForall, Choose, IfNone, EndChoose, Iterate,
    EndIterate, Exists, Holds, And, Or, Not, Div, Mod, True, False, Undef, While, EndWhile, Result, End,
}

#[rustfmt::skip]
pub fn word(s: &[u8]) -> Kind {
    use Kind::*;
    match s {
        b"CoreASM" => CoreAsm, b"use" => Use, b"init" => Init, b"enum" => Enum, b"universe" => Universe,
        b"function" => Function, b"controlled" => Controlled, b"static" => Static, b"initially" => Initially,
        b"derived" => Derived, b"rule" => Rule, b"skip" => Skip, b"par" => Par, b"endpar" => EndPar, b"seq" => Seq,
        b"endseq" => EndSeq, b"if" => If, b"then" => Then, b"else" => Else, b"endif" => EndIf, b"let" => Let, b"in" => In,
        b"endlet" => EndLet, b"forall" => Forall, b"with" => With, b"do" => Do, b"endforall" => EndForall,
        b"choose" => Choose, b"ifnone" => IfNone, b"endchoose" => EndChoose, b"iterate" => Iterate,
        b"enditerate" => EndIterate, b"exists" => Exists, b"holds" => Holds, b"and" => And, b"or" => Or, b"not" => Not,
        b"div" => Div, b"mod" => Mod, b"true" => True, b"false" => False, b"undef" => Undef, b"while" => While,
        b"endwhile" => EndWhile, b"result" => Result,
        _ => Name,
    }
}

#[derive(Clone, Copy)]
pub struct Token {
    pub k: Kind,
    pub at: u32,
    pub v: i64,
}

pub enum Refused {
    Read(u32, Option<u32>),
    Check(u32, u32),
}

pub struct Names<'t> {
    pub ids: HashMap<&'t [u8], u32>,
    pub text: Vec<&'t [u8]>,
}

impl<'t> Names<'t> {
    pub fn id(&mut self, s: &'t [u8]) -> u32 {
        if let Some(i) = self.ids.get(s) {
            return *i;
        }
        let i = self.text.len() as u32;
        self.ids.insert(s, i);
        self.text.push(s);
        i
    }
}

pub fn lex<'t>(b: &'t [u8], names: &mut Names<'t>, most: i64) -> Result<Vec<Token>, Refused> {
    let n = b.len();
    if n > 1 << 20 {
        return Err(Refused::Read(1, None));
    }
    let mut out = Vec::with_capacity(n / 3 + 1);
    let mut i = 0;
    while i < n {
        let at = i as u32;
        let next = if i + 1 < n { b[i + 1] } else { 0 };
        let one = |k: Kind| (k, 1usize);
        let (k, len) = match b[i] {
            b' ' | b'\t' | b'\r' | b'\n' => {
                i += 1;
                continue;
            }
            b'/' if next == b'/' => {
                while i < n && b[i] != b'\n' {
                    i += 1;
                }
                continue;
            }
            b'/' if next == b'*' => {
                let mut j = i + 2;
                while j + 1 < n && !(b[j] == b'*' && b[j + 1] == b'/') {
                    j += 1;
                }
                if j + 1 >= n {
                    return Err(Refused::Read(3, Some(at)));
                }
                i = j + 2;
                continue;
            }
            b'a'..=b'z' | b'A'..=b'Z' | b'_' => {
                let mut j = i + 1;
                while j < n && (b[j].is_ascii_alphanumeric() || b[j] == b'_') {
                    j += 1;
                }
                let k = word(&b[i..j]);
                let v = if k == Kind::Name {
                    names.id(&b[i..j]) as i64
                } else {
                    0
                };
                out.push(Token { k, at, v });
                i = j;
                continue;
            }
            b'0'..=b'9' => {
                let mut v = 0i64;
                let mut j = i;
                while j < n && b[j].is_ascii_digit() {
                    v = v.saturating_mul(10).saturating_add((b[j] - b'0') as i64);
                    j += 1;
                }
                if v > most || (j < n && (b[j].is_ascii_alphabetic() || b[j] == b'_')) {
                    return Err(Refused::Read(4, Some(at)));
                }
                out.push(Token {
                    k: Kind::Num,
                    at,
                    v,
                });
                i = j;
                continue;
            }
            b'(' => one(Kind::OpenParenthesis),
            b')' => one(Kind::CloseParenthesis),
            b'{' => one(Kind::OpenBrace),
            b'}' => one(Kind::CloseBrace),
            b',' => one(Kind::Comma),
            b'+' => one(Kind::Plus),
            b'*' => one(Kind::Star),
            b'=' => one(Kind::Eq),
            b':' if next == b'=' => (Kind::Becomes, 2),
            b':' => one(Kind::Colon),
            b'!' if next == b'=' => (Kind::Ne, 2),
            b'<' if next == b'=' => (Kind::Le, 2),
            b'<' if next == b'-' => (Kind::Into, 2),
            b'<' => one(Kind::Lt),
            b'>' if next == b'=' => (Kind::Ge, 2),
            b'>' => one(Kind::Gt),
            b'-' if next == b'>' => (Kind::Arrow, 2),
            b'-' => one(Kind::Minus),
            b'.' if next == b'.' => (Kind::Dots, 2),
            _ => return Err(Refused::Read(2, Some(at))),
        };
        out.push(Token { k, at, v: 0 });
        i += len;
    }
    out.push(Token {
        k: Kind::End,
        at: n as u32,
        v: 0,
    });
    Ok(out)
}
