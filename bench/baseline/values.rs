//! Values as ordered numbers.

pub type Value = u64;
pub const UNDEF: Value = 1;
pub const FALSE: Value = 2;
pub const TRUE: Value = 3;
pub const ZERO: i64 = 1 << 61;
pub const ELEMENT: u64 = 1 << 62;

#[inline(always)]
pub fn is_number(v: Value) -> bool {
    v > TRUE && v < ELEMENT
}
#[inline(always)]
pub fn as_number(v: Value) -> i64 {
    v as i64 - ZERO
}
#[inline(always)]
pub fn number(n: i64) -> Value {
    (n + ZERO) as u64
}
#[inline(always)]
pub fn truth(b: bool) -> Value {
    FALSE + b as u64
}
