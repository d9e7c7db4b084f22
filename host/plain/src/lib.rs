//! An independent implementation of the rules in safe Rust: compile, check, run and the plain meaning. It shares no code with the proved crates; it is
//! what they are compared with and measured against.
#![forbid(unsafe_code)]

pub mod check;
pub mod compile;
pub mod emit;
pub mod machine;
pub mod meaning;
pub mod stages;
pub mod structure;

/// A refusal: its number and its place.
#[derive(Clone, Copy, Debug, PartialEq, Eq)]
pub struct Refusal {
    pub number: u32,
    pub place: usize,
}

pub fn refuse<T>(number: u32, place: usize) -> Result<T, Refusal> {
    Err(Refusal { number, place })
}

/// Steps a function may take, its calls included.
pub const MOST: u64 = 1_000_000_000;

pub const TRUE: u32 = u32::MAX;

/// The operators by their codes; 14 and 15 are `&&` and `||` of the script.
#[inline]
pub fn operate(code: u32, a: u32, b: u32) -> u32 {
    let mask = |x: bool| if x { TRUE } else { 0 };
    match code {
        1 => a.wrapping_add(b),
        2 => a.wrapping_sub(b),
        3 => a.wrapping_mul(b),
        4 => a.checked_shl(b).unwrap_or(0),
        5 => a.checked_shr(b).unwrap_or(0),
        6 | 14 => a & b,
        7 | 15 => a | b,
        8 => mask(a == b),
        9 => mask(a != b),
        10 => mask(a > b),
        11 => mask(a < b),
        12 => mask(a >= b),
        _ => mask(a <= b),
    }
}
