//! The translation of an accepted table: what it costs, and its tape.
use crate::stages::Script;
use crate::{refuse, Refusal, MOST, TRUE};

/// Tape records, steps (held just over the limit) and the deepest IF nesting of a part, and the record after it.
#[derive(Clone, Copy, Default)]
struct Cost {
    records: usize,
    steps: u64,
    depth: u32,
    next: usize,
}

fn held(steps: u64) -> u64 {
    steps.min(MOST + 1)
}

/// What a table's tape needs.
pub struct Costs {
    pub records: usize,
    pub steps: u32,
    pub depths: [u32; 16],
}

pub fn cost(s: &Script) -> Result<Costs, Refusal> {
    let mut known = [0u64; 16];
    let mut depths = [0; 16];
    let mut records = 1 + s.table[2] as usize;
    for (f, &at) in s.functions.iter().enumerate() {
        let c = cost_statement(s, at + 1, 0, &known);
        known[f] = held(c.steps + 3);
        depths[f] = c.depth;
        records += c.records + 6;
        if known[f] > MOST {
            return refuse(12, at);
        }
    }
    Ok(Costs {
        records,
        steps: known[s.functions.len() - 1] as u32,
        depths,
    })
}

fn cost_expression(s: &Script, mut at: usize, known: &[u64; 16]) -> Cost {
    let first = at;
    let mut steps = 0;
    let mut due = 1;
    while due > 0 {
        let x = s.at(at);
        if x[0] > 22 {
            steps += 1;
        }
        if x[0] == 28 {
            steps = held(steps + known[x[1] as usize]);
        }
        due += s.parts(x);
        due -= 1;
        at += 1;
    }
    Cost {
        records: at - first,
        steps,
        depth: 0,
        next: at,
    }
}

fn cost_statement(s: &Script, at: usize, d: u32, known: &[u64; 16]) -> Cost {
    let x = s.at(at);
    let mut c = Cost {
        next: at + 1,
        ..Cost::default()
    };
    let part = |next: usize| cost_expression(s, next, known);
    match x[0] {
        30 => {}
        31 => {
            for _ in 0..x[1] {
                let p = cost_statement(s, c.next, d, known);
                c = Cost {
                    records: c.records + p.records,
                    steps: held(c.steps + p.steps),
                    depth: c.depth.max(p.depth),
                    next: p.next,
                };
            }
        }
        32 => {
            let e = part(at + 1);
            c = Cost { records: e.records + 1, steps: held(e.steps + 1), depth: 0, next: e.next };
        }
        33 | 37 => {
            let e = part(at + 1);
            c = Cost {
                records: e.records + 12 + 4 * d as usize,
                steps: held(e.steps + 10 + 4 * d as u64),
                depth: 0,
                next: e.next,
            };
        }
        34 => {
            let i = part(at + 1);
            let e = part(i.next);
            c = Cost {
                records: 2 * i.records + e.records + 12 + 4 * d as usize,
                steps: held(2 * i.steps + e.steps + 10 + 4 * d as u64),
                depth: 0,
                next: e.next,
            };
        }
        35 => {
            let b = cost_statement(s, at + 1, d, known);
            c = Cost {
                records: b.records + 2,
                steps: held((x[3] - x[2]) as u64 * (1 + b.steps)),
                depth: b.depth,
                next: b.next,
            };
        }
        _ => {
            let e = part(at + 1);
            let t = cost_statement(s, e.next, d + 1, known);
            let u = cost_statement(s, t.next, d + 1, known);
            c = Cost {
                records: e.records + t.records + u.records + 4,
                steps: held(e.steps + t.steps + u.steps + 4),
                depth: 1 + t.depth.max(u.depth),
                next: u.next,
            };
        }
    }
    c
}

/// Writes records one after another.
struct Emitter<'o> {
    out: &'o mut [u32],
    at: usize,
    slots: u32,
}

impl Emitter<'_> {
    fn put(&mut self, kind: u32, p: u32, q: u32, r: u32) {
        self.out[self.at..self.at + 4].copy_from_slice(&[kind, p, q, r]);
        self.at += 4;
    }

    fn one(&mut self, kind: u32, p: u32) {
        self.put(kind, p, 0, 0);
    }

    fn expression(&mut self, s: &Script, at: usize) -> usize {
        let x = s.at(at);
        let mut next = at + 1;
        for _ in 0..s.parts(x) {
            next = self.expression(s, next);
        }
        match x[0] {
            20 => self.one(10, x[1]),
            21 => self.one(10, TRUE),
            22 => self.one(10, 0),
            23 => self.one(11, x[1]),
            24 => self.one(12, x[1]),
            25 | 26 => self.one(13, 0),
            27 => self.one(14, if x[1] > 13 { x[1] - 8 } else { x[1] }),
            _ => self.one(15, x[1]),
        }
        next
    }

    /// The condition slots of the IFs round a statement, the outermost context below them.
    fn context(&mut self, d: u32) {
        for k in (0..d).rev() {
            self.one(11, self.slots + 2 + k);
        }
        self.one(10, TRUE);
        for _ in 0..d {
            self.one(14, 6);
        }
    }

    fn mask(&mut self, d: u32) {
        self.context(d);
        self.one(11, self.slots + 1);
        self.one(14, 6);
    }

    fn statement(&mut self, s: &Script, at: usize, d: u32) -> usize {
        let x = s.at(at);
        match x[0] {
            30 => at + 1,
            31 => (0..x[1]).fold(at + 1, |next, _| self.statement(s, next, d)),
            32 => {
                let next = self.expression(s, at + 1);
                self.one(16, x[1]);
                next
            }
            33 => {
                let next = self.expression(s, at + 1);
                self.mask(d);
                self.one(14, 6);
                self.one(11, x[1]);
                self.rest_of_merge(d);
                self.one(17, x[1]);
                next
            }
            34 => {
                let value = self.expression(s, at + 1);
                let next = self.expression(s, value);
                self.mask(d);
                self.one(14, 6);
                self.expression(s, at + 1);
                self.one(12, x[1]);
                self.rest_of_merge(d);
                self.one(18, x[1]);
                next
            }
            35 => {
                self.put(19, x[1], x[2], x[3]);
                let next = self.statement(s, at + 1, d);
                self.one(20, 0);
                next
            }
            36 => {
                let condition = self.slots + 2 + d;
                let mut next = self.expression(s, at + 1);
                self.one(16, condition);
                next = self.statement(s, next, d + 1);
                self.one(11, condition);
                self.one(13, 0);
                self.one(17, condition);
                self.statement(s, next, d + 1)
            }
            _ => {
                let next = self.expression(s, at + 1);
                self.mask(d);
                self.one(14, 6);
                self.one(11, self.slots);
                self.one(14, 7);
                self.one(17, self.slots);
                self.one(11, self.slots + 1);
                self.context(d);
                self.one(13, 0);
                self.one(14, 6);
                self.one(17, self.slots + 1);
                next
            }
        }
    }

    /// `.. & ~M) |`, behind the old value.
    fn rest_of_merge(&mut self, d: u32) {
        self.mask(d);
        self.one(13, 0);
        self.one(14, 6);
        self.one(14, 7);
    }
}

/// Writes the tape, for which there is room.
pub fn emit(s: &Script, depths: &[u32; 16], out: &mut [u32]) {
    let copied = s.functions[0] * 4;
    out[..copied].copy_from_slice(&s.table[..copied]);
    let mut e = Emitter { out, at: copied, slots: 0 };
    for (f, &at) in s.functions.iter().enumerate() {
        let x = s.at(at);
        e.slots = x[2];
        e.put(3, x[1], x[2] + 2 + depths[f], 0);
        e.one(10, 0);
        e.one(16, x[2]);
        e.one(10, TRUE);
        e.one(16, x[2] + 1);
        e.statement(s, at + 1, 0);
        e.one(21, x[2]);
    }
}
