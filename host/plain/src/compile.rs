//! The compiler's whole answer.
use crate::emit::{cost, emit};
use crate::stages::{scope, stores, types, Script};
use crate::structure::structure;
use crate::{refuse, Refusal};

/// Records written, and the exposed function's steps.
#[derive(Clone, Copy, Debug, PartialEq, Eq)]
pub struct Tape {
    pub records: usize,
    pub steps: u32,
}

pub fn compile(table: &[u32], out: &mut [u32]) -> Result<Tape, Refusal> {
    let mut functions = [0usize; 16];
    let count = structure(table, &mut functions)?;
    let s = Script {
        table,
        functions: &functions[..count],
    };
    scope(&s)?;
    types(&s)?;
    stores(&s)?;
    let costs = cost(&s)?;
    if out.len() < costs.records * 4 {
        return refuse(13, costs.records);
    }
    emit(&s, &costs.depths, out);
    Ok(Tape {
        records: costs.records,
        steps: costs.steps,
    })
}
