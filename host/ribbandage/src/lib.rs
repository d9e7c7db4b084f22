//! A safe interface to the proved library. Every function takes any words and bytes, never panics, and changes nothing that was lent where it refuses.

mod refusal;

pub use refusal::Refusal;

/// A table that was compiled: the records written and the exposed function's steps.
#[derive(Clone, Copy, Debug, PartialEq, Eq)]
pub struct Tape {
    pub records: usize,
    pub steps: u32,
}

/// A run that was not refused: done, with its value; or stopped by the limit, with the record of the next counted step.
#[derive(Clone, Copy, Debug, PartialEq, Eq)]
pub enum Ran {
    Done { value: u32, steps: u32 },
    Stopped { steps: u32, record: usize },
}

#[repr(C)]
struct Compiled {
    number: u32,
    steps: u32,
    records: usize,
    place: usize,
}

#[repr(C)]
struct Checked {
    number: u32,
    steps: u32,
    place: usize,
}

#[repr(C)]
struct Answer {
    case: u32,
    number: u32,
    value: u32,
    steps: u32,
    place: usize,
}

extern "C" {
    fn ribband_compile(table: *const u32, words: usize, out: *mut u32, room: usize) -> Compiled;
    fn ribband_check(tape: *const u32, words: usize) -> Checked;
    fn ribband_run(
        tape: *const u32,
        words: usize,
        arguments: *const u32,
        count: usize,
        memory: *mut u8,
        bytes: usize,
        limit: u32,
    ) -> Answer;
}

/// Compiles a table of script records into `out`; only the records written change.
pub fn compile(table: &[u32], out: &mut [u32]) -> Result<Tape, Refusal> {
    // The slices are aligned, initialized and do not overlap, which is all that the library asks of a caller.
    let c = unsafe { ribband_compile(table.as_ptr(), table.len(), out.as_mut_ptr(), out.len()) };
    match c.number {
        0 => Ok(Tape { records: c.records, steps: c.steps }),
        number => Err(Refusal { number, place: c.place }),
    }
}

/// Checks a tape, and gives the steps that each run of it takes.
pub fn check(tape: &[u32]) -> Result<u32, Refusal> {
    let c = unsafe { ribband_check(tape.as_ptr(), tape.len()) };
    match c.number {
        0 => Ok(c.steps),
        number => Err(Refusal { number, place: c.place }),
    }
}

/// Checks a tape and runs it on the arguments and the memory, for `limit` counted steps at most.
pub fn run(tape: &[u32], arguments: &[u32], memory: &mut [u8], limit: u32) -> Result<Ran, Refusal> {
    let a = unsafe {
        ribband_run(
            tape.as_ptr(),
            tape.len(),
            arguments.as_ptr(),
            arguments.len(),
            memory.as_mut_ptr(),
            memory.len(),
            limit,
        )
    };
    match a.case {
        0 => Ok(Ran::Done { value: a.value, steps: a.steps }),
        1 => Ok(Ran::Stopped { steps: a.steps, record: a.place }),
        _ => Err(Refusal { number: a.number, place: a.place }),
    }
}
