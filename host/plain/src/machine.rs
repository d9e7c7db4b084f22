//! The run of a tape: 31, 32, the limit, Done and Stopped.
use crate::check::check;
use crate::{operate, Refusal};

#[derive(Clone, Copy, Debug, PartialEq, Eq)]
pub enum Ran {
    Done { value: u32, steps: u32 },
    Stopped { steps: u32, record: usize },
    Refused(Refusal),
}

#[derive(Clone, Copy, Default)]
struct Loop {
    first: usize,
    slot: usize,
    now: u32,
    end: u32,
}

#[derive(Clone, Copy, Default)]
struct Frame {
    back: usize,
    base: usize,
}

pub fn run(tape: &[u32], arguments: &[u32], memory: &mut [u8], limit: u32) -> Ran {
    let program = match check(tape) {
        Ok(program) => program,
        Err(refusal) => return Ran::Refused(refusal),
    };
    if arguments.len() != program.parameters {
        return Ran::Refused(Refusal { number: 31, place: 0 });
    }
    if memory.len() != program.bytes {
        return Ran::Refused(Refusal { number: 32, place: 0 });
    }
    execute(tape, arguments, memory, limit)
}

fn execute(tape: &[u32], arguments: &[u32], memory: &mut [u8], limit: u32) -> Ran {
    let arrays = tape[2] as usize;
    let mut spans = [(0usize, 0usize); 8];
    let mut end = 0;
    for (a, span) in spans.iter_mut().enumerate().take(arrays) {
        let length = tape[(a + 1) * 4 + 1] as usize;
        *span = (end, length);
        end += length;
    }
    let mut functions = [0usize; 16];
    let mut count = 0;
    for (at, x) in tape.chunks_exact(4).enumerate() {
        if x[0] == 3 {
            functions[count] = at;
            count += 1;
        }
    }
    let first = functions[count - 1];
    let mut operands = [0u32; 2048];
    let mut slots = [0u32; 1024];
    let mut loops = [Loop::default(); 128];
    let mut frames = [Frame::default(); 16];
    let (mut held, mut open, mut calls) = (0usize, 0usize, 0usize);
    let mut base = 0;
    let mut top = tape[first * 4 + 2] as usize;
    slots[..arguments.len()].copy_from_slice(arguments);
    let mut at = first + 1;
    let mut steps = 0u32;
    loop {
        let x = &tape[at * 4..at * 4 + 4];
        let (kind, p) = (x[0], x[1]);
        match kind {
            10 => {
                operands[held] = p;
                held += 1;
                at += 1;
                continue;
            }
            19 if x[2] >= x[3] => {
                at = past(tape, at);
                continue;
            }
            20 => {
                let l = &loops[open - 1];
                if l.now + 1 >= l.end {
                    open -= 1;
                    at += 1;
                    continue;
                }
                if steps == limit {
                    return Ran::Stopped { steps, record: l.first };
                }
            }
            _ => {}
        }
        if steps == limit {
            return Ran::Stopped { steps, record: at };
        }
        steps += 1;
        at += 1;
        match kind {
            11 => {
                operands[held] = slots[base + p as usize];
                held += 1;
            }
            12 => {
                let (start, length) = spans[p as usize];
                let i = operands[held - 1] as usize;
                operands[held - 1] = if i < length { memory[start + i] as u32 } else { 0 };
            }
            13 => operands[held - 1] = !operands[held - 1],
            14 => {
                held -= 1;
                operands[held - 1] = operate(p, operands[held - 1], operands[held]);
            }
            15 => {
                let f = functions[p as usize];
                let parameters = tape[f * 4 + 1] as usize;
                held -= parameters;
                slots[top..top + parameters].copy_from_slice(&operands[held..held + parameters]);
                frames[calls] = Frame { back: at, base };
                calls += 1;
                base = top;
                top += tape[f * 4 + 2] as usize;
                at = f + 1;
            }
            16 | 17 => {
                held -= 1;
                slots[base + p as usize] = operands[held];
            }
            18 => {
                held -= 2;
                let (start, length) = spans[p as usize];
                let i = operands[held] as usize;
                if i < length {
                    memory[start + i] = operands[held + 1] as u8;
                }
            }
            19 => {
                let slot = base + p as usize;
                loops[open] = Loop { first: at - 1, slot, now: x[2], end: x[3] };
                slots[slot] = x[2];
                open += 1;
            }
            20 => {
                let l = &mut loops[open - 1];
                l.now += 1;
                slots[l.slot] = l.now;
                at = l.first + 1;
            }
            _ => {
                let value = slots[base + p as usize];
                if calls == 0 {
                    return Ran::Done { value, steps };
                }
                calls -= 1;
                top = base;
                base = frames[calls].base;
                at = frames[calls].back;
                operands[held] = value;
                held += 1;
            }
        }
    }
}

/// The record after the END of the loop whose FOR is at `first`.
fn past(tape: &[u32], first: usize) -> usize {
    let mut inside = 0;
    for (at, x) in tape.chunks_exact(4).enumerate().skip(first + 1) {
        match x[0] {
            19 => inside += 1,
            20 if inside == 0 => return at + 1,
            20 => inside -= 1,
            _ => {}
        }
    }
    tape.len() / 4
}
