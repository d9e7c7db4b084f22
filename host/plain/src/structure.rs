//! The structure of a table: 1 to 7, by recursive descent over its records.
use crate::{refuse, Refusal};

/// What fields are tested against: the present function's slots, the arrays, the present function and the parameters of those before it.
pub struct Env {
    pub slots: u32,
    pub arrays: u32,
    pub function: u32,
    pub parameters: [u32; 16],
}

/// The four words of the record at a place, of a table of whole records.
pub fn record(table: &[u32], at: usize) -> Option<&[u32]> {
    table.get(at * 4..at * 4 + 4)
}

/// The record at a place: 3, 2, 4, and 5, in the order of the places and then of the numbers.
fn lead<'t>(
    table: &'t [u32],
    at: usize,
    kinds: std::ops::RangeInclusive<u32>,
    in_range: impl Fn(u32, &[u32]) -> bool,
) -> Result<&'t [u32], Refusal> {
    let Some(x) = record(table, at) else {
        return refuse(3, table.len() / 4);
    };
    if !kinds.contains(&x[0]) {
        return refuse(2, at);
    }
    let fields = match x[0] {
        1 | 3 => 2,
        2 | 20 | 23 | 24 | 27 | 28 | 31 | 32 | 33 | 34 => 1,
        35 => 3,
        _ => 0,
    };
    if x[1 + fields..].iter().any(|w| *w != 0) {
        return refuse(4, at);
    }
    if !in_range(x[0], x) {
        return refuse(5, at);
    }
    Ok(x)
}

/// The record after the expression at a place, with so much depth left.
fn expression(table: &[u32], at: usize, left: u32, env: &Env) -> Result<usize, Refusal> {
    let x = lead(table, at, 20..=28, |kind, x| match kind {
        23 => x[1] < env.slots,
        24 => x[1] < env.arrays,
        27 => (1..=15).contains(&x[1]),
        28 => x[1] < env.function,
        _ => true,
    })?;
    if left == 0 {
        return refuse(7, at);
    }
    let parts = match x[0] {
        20..=23 => 0,
        27 => 2,
        28 => env.parameters[x[1] as usize],
        _ => 1,
    };
    let mut next = at + 1;
    for _ in 0..parts {
        next = expression(table, next, left - 1, env)?;
    }
    Ok(next)
}

fn statement(table: &[u32], at: usize, left: u32, ifs: u32, fors: u32, env: &Env) -> Result<usize, Refusal> {
    let x = lead(table, at, 30..=37, |kind, x| match kind {
        31 => (2..=256).contains(&x[1]),
        32 | 33 => x[1] < env.slots,
        34 => x[1] < env.arrays,
        35 => x[1] < env.slots && x[2] <= x[3],
        _ => true,
    })?;
    if left == 0 || (x[0] == 35 && fors == 8) || (x[0] == 36 && ifs == 8) {
        return refuse(7, at);
    }
    let (expressions, statements) = match x[0] {
        30 => (0, 0),
        31 => (0, x[1]),
        34 => (2, 0),
        35 => (0, 1),
        36 => (1, 2),
        _ => (1, 0),
    };
    let mut next = at + 1;
    for _ in 0..expressions {
        next = expression(table, next, 16, env)?;
    }
    for _ in 0..statements {
        next = statement(table, next, left - 1, ifs + (x[0] == 36) as u32, fors + (x[0] == 35) as u32, env)?;
    }
    Ok(next)
}

/// Stage 1 to 7. Gives the FUNC record of each function.
pub fn structure(table: &[u32], functions: &mut [usize; 16]) -> Result<usize, Refusal> {
    let records = table.len() / 4;
    if table.is_empty() || table.len() % 4 != 0 || records > 4096 {
        return refuse(1, 0);
    }
    let head = lead(table, 0, 1..=1, |_, x| (1..=16).contains(&x[1]) && x[2] <= 8)?;
    for at in 1..=head[2] as usize {
        lead(table, at, 2..=2, |_, x| (1..=4096).contains(&x[1]))?;
    }
    let mut env = Env {
        slots: 0,
        arrays: head[2],
        function: 0,
        parameters: [0; 16],
    };
    let mut at = 1 + head[2] as usize;
    for f in 0..head[1] as usize {
        let x = lead(table, at, 3..=3, |_, x| x[1] <= 8 && x[1] <= x[2] && x[2] <= 32)?;
        functions[f] = at;
        env.slots = x[2];
        env.function = f as u32;
        at = statement(table, at + 1, 16, 0, 0, &env)?;
        env.parameters[f] = x[1];
    }
    if at < records {
        return refuse(6, at);
    }
    Ok(head[1] as usize)
}
