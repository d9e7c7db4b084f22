//! The stages on a table whose structure is sound: scope (8, 9), types (10), stores (11).
use crate::{refuse, Refusal};

/// A table of sound structure and its functions' FUNC records.
pub struct Script<'t> {
    pub table: &'t [u32],
    pub functions: &'t [usize],
}

impl<'t> Script<'t> {
    pub fn at(&self, at: usize) -> &'t [u32] {
        &self.table[at * 4..at * 4 + 4]
    }

    /// How many parts the expression record has.
    pub fn parts(&self, x: &[u32]) -> u32 {
        match x[0] {
            20..=23 => 0,
            27 => 2,
            28 => self.at(self.functions[x[1] as usize])[1],
            _ => 1,
        }
    }

    /// The record after the expression at a place.
    pub fn past(&self, mut at: usize) -> usize {
        let mut due = 1;
        while due > 0 {
            due += self.parts(self.at(at));
            due -= 1;
            at += 1;
        }
        at
    }
}

#[derive(Clone, Copy)]
struct Names {
    defined: u32,
    fixed: u32,
    declared: u32,
}

pub fn scope(s: &Script) -> Result<(), Refusal> {
    for &f in s.functions {
        let parameters = (1u32 << s.at(f)[1]) - 1;
        let mut names = Names {
            defined: 0,
            fixed: parameters,
            declared: parameters,
        };
        scope_statement(s, f + 1, &mut names)?;
    }
    Ok(())
}

fn scope_expression(s: &Script, mut at: usize, names: &Names) -> Result<usize, Refusal> {
    let mut due = 1;
    while due > 0 {
        let x = s.at(at);
        if x[0] == 23 && (names.defined | names.fixed) >> x[1] & 1 == 0 {
            return refuse(8, at);
        }
        due += s.parts(x);
        due -= 1;
        at += 1;
    }
    Ok(at)
}

fn scope_statement(s: &Script, at: usize, names: &mut Names) -> Result<usize, Refusal> {
    let x = s.at(at);
    let bit = if matches!(x[0], 32 | 33 | 35) { 1u32 << x[1] } else { 0 };
    match x[0] {
        30 => Ok(at + 1),
        31 => (0..x[1]).try_fold(at + 1, |next, _| scope_statement(s, next, names)),
        32 => {
            if names.declared & bit != 0 {
                return refuse(8, at);
            }
            let next = scope_expression(s, at + 1, names)?;
            names.declared |= bit;
            names.defined |= bit;
            Ok(next)
        }
        33 => {
            if (names.defined | names.fixed) & bit == 0 {
                return refuse(8, at);
            }
            if names.fixed & bit != 0 {
                return refuse(9, at);
            }
            scope_expression(s, at + 1, names)
        }
        34 => {
            let next = scope_expression(s, at + 1, names)?;
            scope_expression(s, next, names)
        }
        35 => {
            if names.declared & bit != 0 {
                return refuse(8, at);
            }
            let mut inner = *names;
            inner.declared |= bit;
            inner.fixed |= bit;
            let next = scope_statement(s, at + 1, &mut inner)?;
            names.declared = inner.declared;
            Ok(next)
        }
        36 => {
            let mut next = scope_expression(s, at + 1, names)?;
            for _ in 0..2 {
                let mut inner = *names;
                next = scope_statement(s, next, &mut inner)?;
                names.declared = inner.declared;
            }
            Ok(next)
        }
        _ => scope_expression(s, at + 1, names),
    }
}

pub fn types(s: &Script) -> Result<(), Refusal> {
    for &f in s.functions {
        let mut booleans = 0;
        type_statement(s, f + 1, &mut booleans)?;
    }
    Ok(())
}

/// An expression's type (whether it is a boolean), its first fault, and the record after it.
struct Typed {
    boolean: bool,
    fault: Option<usize>,
    next: usize,
}

fn type_expression(s: &Script, at: usize, booleans: u32) -> Typed {
    let x = s.at(at);
    let mut next = at + 1;
    let mut fault = None;
    let mut part = || {
        let t = type_expression(s, next, booleans);
        fault = fault.or(t.fault);
        next = t.next;
        t.boolean
    };
    let (boolean, fine) = match x[0] {
        20 => (false, true),
        21 | 22 => (true, true),
        23 => (booleans >> x[1] & 1 != 0, true),
        24 | 26 => (false, !part()),
        25 => (true, part()),
        27 => {
            let (l, r) = (part(), part());
            match x[1] {
                1..=5 => (false, !l && !r),
                6 | 7 => (l, l == r),
                8 | 9 => (true, l == r),
                10..=13 => (true, !l && !r),
                _ => (true, l && r),
            }
        }
        _ => {
            let mut fine = true;
            for _ in 0..s.parts(x) {
                fine &= !part();
            }
            (false, fine)
        }
    };
    Typed {
        boolean,
        fault: if fine { fault } else { Some(at) },
        next,
    }
}

fn type_statement(s: &Script, at: usize, booleans: &mut u32) -> Result<usize, Refusal> {
    let x = s.at(at);
    let mut next = at + 1;
    let expressions = match x[0] {
        32 | 33 | 36 | 37 => 1,
        34 => 2,
        _ => 0,
    };
    let mut fault = None;
    let mut kinds = [false; 2];
    for kind in kinds.iter_mut().take(expressions) {
        let t = type_expression(s, next, *booleans);
        fault = fault.or(t.fault);
        *kind = t.boolean;
        next = t.next;
    }
    let fine = match x[0] {
        33 => kinds[0] == (*booleans >> x[1] & 1 != 0),
        34 => !kinds[0] && !kinds[1],
        36 => kinds[0],
        37 => !kinds[0],
        _ => true,
    };
    if !fine {
        return refuse(10, at);
    }
    if let Some(place) = fault {
        return refuse(10, place);
    }
    if x[0] == 32 && kinds[0] {
        *booleans |= 1 << x[1];
    }
    let statements = match x[0] {
        31 => x[1],
        35 => 1,
        36 => 2,
        _ => 0,
    };
    for _ in 0..statements {
        next = type_statement(s, next, booleans)?;
    }
    Ok(next)
}

pub fn stores(s: &Script) -> Result<(), Refusal> {
    let last = s.functions[s.functions.len() - 1];
    match (s.functions[0]..last).find(|at| s.at(*at)[0] == 34) {
        Some(at) => refuse(11, at),
        None => Ok(()),
    }
}
