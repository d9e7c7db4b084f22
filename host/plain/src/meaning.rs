//! The plain meaning of an accepted table: what the script says, with one branch of each IF taken.
use crate::operate;
use crate::stages::Script;
use crate::structure::structure;
use crate::TRUE;

/// The value of an accepted table's exposed function on these arguments and this memory.
pub fn plain(table: &[u32], arguments: &[u32], memory: &mut [u8]) -> u32 {
    let mut functions = [0usize; 16];
    let count = structure(table, &mut functions).expect("an accepted table");
    let script = Script {
        table,
        functions: &functions[..count],
    };
    let mut starts = vec![0];
    for a in 0..table[2] as usize {
        starts.push(starts[a] + table[(a + 1) * 4 + 1] as usize);
    }
    let mut world = World {
        script: &script,
        starts,
        memory,
    };
    world.call(count - 1, arguments)
}

struct World<'w> {
    script: &'w Script<'w>,
    starts: Vec<usize>,
    memory: &'w mut [u8],
}

enum Flow {
    On(usize),
    Returned(u32),
}

impl World<'_> {
    fn call(&mut self, f: usize, arguments: &[u32]) -> u32 {
        let mut slots = [0u32; 32];
        slots[..arguments.len()].copy_from_slice(arguments);
        match self.statement(self.script.functions[f] + 1, &mut slots) {
            Flow::On(_) => 0,
            Flow::Returned(value) => value,
        }
    }

    fn place(&self, array: u32, index: u32) -> Option<usize> {
        let start = self.starts[array as usize];
        let end = self.starts[array as usize + 1];
        Some(start + index as usize).filter(|place| *place < end)
    }

    fn expression(&mut self, at: usize, slots: &[u32; 32]) -> (u32, usize) {
        let x = self.script.at(at);
        let mut next = at + 1;
        let mut values = [0u32; 8];
        for value in values.iter_mut().take(self.script.parts(x) as usize) {
            (*value, next) = self.expression(next, slots);
        }
        let value = match x[0] {
            20 => x[1],
            21 => TRUE,
            22 => 0,
            23 => slots[x[1] as usize],
            24 => self.place(x[1], values[0]).map_or(0, |place| self.memory[place] as u32),
            25 | 26 => !values[0],
            27 => operate(x[1], values[0], values[1]),
            _ => {
                let parameters = self.script.parts(x) as usize;
                self.call(x[1] as usize, &values[..parameters])
            }
        };
        (value, next)
    }

    fn statement(&mut self, at: usize, slots: &mut [u32; 32]) -> Flow {
        let x = self.script.at(at);
        match x[0] {
            30 => Flow::On(at + 1),
            31 => {
                let mut next = at + 1;
                for _ in 0..x[1] {
                    match self.statement(next, slots) {
                        Flow::On(after) => next = after,
                        returned => return returned,
                    }
                }
                Flow::On(next)
            }
            32 | 33 => {
                let (value, next) = self.expression(at + 1, slots);
                slots[x[1] as usize] = value;
                Flow::On(next)
            }
            34 => {
                let (index, next) = self.expression(at + 1, slots);
                let (value, next) = self.expression(next, slots);
                if let Some(place) = self.place(x[1], index) {
                    self.memory[place] = value as u8;
                }
                Flow::On(next)
            }
            35 => {
                for i in x[2]..x[3] {
                    slots[x[1] as usize] = i;
                    if let Flow::Returned(value) = self.statement(at + 1, slots) {
                        return Flow::Returned(value);
                    }
                }
                Flow::On(self.past(at))
            }
            36 => {
                let (condition, then) = self.expression(at + 1, slots);
                let other = self.past(then);
                let taken = if condition == TRUE { then } else { other };
                match self.statement(taken, slots) {
                    Flow::On(_) => Flow::On(self.past(other)),
                    returned => returned,
                }
            }
            _ => Flow::Returned(self.expression(at + 1, slots).0),
        }
    }

    /// The record after the statement at a place.
    fn past(&self, at: usize) -> usize {
        let x = self.script.at(at);
        let (expressions, statements) = match x[0] {
            30 => (0, 0),
            31 => (0, x[1]),
            34 => (2, 0),
            35 => (0, 1),
            36 => (1, 2),
            _ => (1, 0),
        };
        let mut next = at + 1;
        for _ in 0..expressions {
            next = self.script.past(next);
        }
        for _ in 0..statements {
            next = self.past(next);
        }
        next
    }
}
