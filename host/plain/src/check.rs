//! The check of a tape: 21 to 30.
use crate::{refuse, Refusal, MOST};

/// A tape that was accepted: what a run needs to know of it.
#[derive(Clone, Debug, PartialEq, Eq)]
pub struct Program {
    pub steps: u32,
    pub parameters: usize,
    pub bytes: usize,
}

#[derive(Clone, Copy, Default)]
struct Body {
    /// Slots that may be set, slots that may only be read.
    defined: u64,
    fixed: u64,
    steps: u64,
    passes: u64,
}

struct Function {
    parameters: u32,
    slots: u32,
    operands: u32,
    depth: usize,
}

/// A count that stays just over the limit once it is there.
fn held(steps: u64) -> u64 {
    steps.min(MOST + 1)
}

/// How many fields a kind has, and what class it belongs to.
fn fields(kind: u32) -> usize {
    match kind {
        1 | 3 => 2,
        13 | 20 => 0,
        19 => 3,
        _ => 1,
    }
}

fn unused(x: &[u32]) -> bool {
    x[1 + fields(x[0])..].iter().any(|w| *w != 0)
}

pub fn check(tape: &[u32]) -> Result<Program, Refusal> {
    let records = tape.len() / 4;
    if tape.is_empty() || tape.len() % 4 != 0 || records > 131_072 {
        return refuse(21, 0);
    }
    let head = &tape[..4];
    if head[0] != 1 {
        return refuse(22, 0);
    }
    if unused(head) {
        return refuse(24, 0);
    }
    if !(1..=16).contains(&head[1]) || head[2] > 8 {
        return refuse(25, 0);
    }
    let (functions, arrays) = (head[1] as usize, head[2] as usize);
    let mut bytes = 0;
    for at in 1..=arrays {
        let Some(x) = tape.get(at * 4..at * 4 + 4) else {
            return refuse(23, records);
        };
        if x[0] != 2 {
            return refuse(22, at);
        }
        if unused(x) {
            return refuse(24, at);
        }
        if !(1..=4096).contains(&x[1]) {
            return refuse(25, at);
        }
        bytes += x[1] as usize;
    }
    let mut known: [(u32, u64, usize); 16] = [(0, 0, 0); 16];
    let mut at = arrays + 1;
    for f in 0..functions {
        let first = at;
        let (parameters, steps);
        (parameters, steps, at) = function(tape, at, f, arrays as u32, &known)?;
        known[f] = (parameters, steps, first);
    }
    if at < records {
        return refuse(26, at);
    }
    for x in &known[..functions] {
        if x.1 > MOST {
            return refuse(30, x.2);
        }
    }
    let last = known[functions - 1];
    Ok(Program {
        steps: last.1 as u32,
        parameters: last.0 as usize,
        bytes,
    })
}

/// One function, from its CFUNC to its RET: its parameters, its steps and the record after it.
fn function(
    tape: &[u32],
    first: usize,
    f: usize,
    arrays: u32,
    known: &[(u32, u64, usize); 16],
) -> Result<(u32, u64, usize), Refusal> {
    let records = tape.len() / 4;
    let Some(x) = tape.get(first * 4..first * 4 + 4) else {
        return refuse(23, records);
    };
    if x[0] != 3 {
        return refuse(22, first);
    }
    if unused(x) {
        return refuse(24, first);
    }
    if x[1] > 8 || x[2] < x[1] || x[2] > 64 {
        return refuse(25, first);
    }
    let mut g = Function {
        parameters: x[1],
        slots: x[2],
        operands: 0,
        depth: 0,
    };
    let mut bodies = [Body::default(); 9];
    bodies[0].fixed = (1u64 << g.parameters) - 1;
    let mut at = first + 1;
    for x in tape[at * 4..].chunks_exact(4) {
        let kind = x[0];
        if !(10..=21).contains(&kind) {
            return refuse(22, at);
        }
        if unused(x) {
            return refuse(24, at);
        }
        let (p, q, r) = (x[1], x[2], x[3]);
        let fine = match kind {
            10 | 13 | 20 => true,
            11 | 16 | 17 | 21 => p < g.slots,
            12 | 18 => p < arrays,
            14 => (1..=13).contains(&p),
            15 => (p as usize) < f,
            _ => p < g.slots && q <= r,
        };
        if !fine {
            return refuse(25, at);
        }
        if kind >= 19 {
            let nested = match kind {
                19 => g.depth < 8,
                20 => g.depth > 0,
                _ => g.depth == 0,
            };
            if !nested {
                return refuse(27, at);
            }
        }
        let takes = match kind {
            10 | 11 | 19 | 20 | 21 => 0,
            14 | 18 => 2,
            15 => known[p as usize].0,
            _ => 1,
        };
        if g.operands < takes {
            return refuse(28, at);
        }
        let left = g.operands - takes;
        if kind >= 16 && left != 0 {
            return refuse(28, at);
        }
        g.operands = left + (kind < 16) as u32;
        if g.operands > 128 {
            return refuse(28, at);
        }
        let body = &mut bodies[g.depth];
        if matches!(kind, 11 | 16 | 17 | 19 | 21) {
            let bit = 1u64 << p;
            let allowed = match kind {
                11 | 21 => (body.defined | body.fixed) & bit != 0,
                16 => body.fixed & bit == 0,
                17 => body.defined & !body.fixed & bit != 0,
                _ => (body.defined | body.fixed) & bit == 0,
            };
            if !allowed {
                return refuse(29, at);
            }
            if kind == 16 {
                body.defined |= bit;
            }
        }
        match kind {
            10 => {}
            15 => body.steps = held(body.steps + 1 + known[p as usize].1),
            19 => {
                let inner = Body {
                    defined: body.defined,
                    fixed: body.fixed | 1 << p,
                    steps: 0,
                    passes: (r - q) as u64,
                };
                g.depth += 1;
                bodies[g.depth] = inner;
            }
            20 => {
                let all = held(body.passes * (1 + body.steps));
                g.depth -= 1;
                bodies[g.depth].steps = held(bodies[g.depth].steps + all);
            }
            21 => return Ok((g.parameters, held(body.steps + 1), at + 1)),
            _ => body.steps = held(body.steps + 1),
        }
        at += 1;
    }
    refuse(23, records)
}
