//! The proved library beside the independent implementation, on generated cases: valid tables, tables and tapes damaged at every word, hand-made tapes, limits at
//! every edge. Answers, every word and byte, and the buffers that are to stay untouched are compared. Prints how many cases were tried and how many differ.
mod generate;
mod rng;
mod tapes;

use generate::table;
use plain::meaning::plain;
use rng::Rng;
use std::process::ExitCode;

const MARK: u32 = 0x5a5a_5a5a;

/// How many cases were tried, and how many of them differ.
#[derive(Default)]
pub struct Tally {
    compiled: u64,
    accepted: u64,
    checked: u64,
    run: u64,
    meant: u64,
    differ: u64,
}

impl Tally {
    fn note(&mut self, same: bool, what: &str, words: &[u32]) {
        if !same {
            self.differ += 1;
            if self.differ <= 5 {
                eprintln!("differs: {what}: {words:?}");
            }
        }
    }

    fn cases(&self) -> u64 {
        self.compiled + self.checked + self.run + self.meant
    }

    /// Compiles with both, into outputs of one length.
    fn compile(&mut self, table: &[u32], room: usize) -> Option<Vec<u32>> {
        let (mut a, mut b) = (vec![MARK; room], vec![MARK; room]);
        let x = plain::compile::compile(table, &mut a);
        let y = ribbandage::compile(table, &mut b);
        let same = match (x, y) {
            (Ok(x), Ok(y)) => (x.records, x.steps) == (y.records, y.steps),
            (Err(x), Err(y)) => (x.number, x.place) == (y.number, y.place),
            _ => false,
        };
        self.compiled += 1;
        self.note(same && a == b, "compile", table);
        y.ok().map(|y| {
            self.accepted += 1;
            b.truncate(y.records * 4);
            b
        })
    }

    /// Checks with both, and gives the steps of a tape that both accept.
    fn check(&mut self, tape: &[u32]) -> Option<u32> {
        let x = plain::check::check(tape);
        let y = ribbandage::check(tape);
        let same = match (&x, &y) {
            (Ok(x), Ok(y)) => x.steps == *y,
            (Err(x), Err(y)) => (x.number, x.place) == (y.number, y.place),
            _ => false,
        };
        self.checked += 1;
        self.note(same, "check", tape);
        y.ok()
    }

    fn run(&mut self, tape: &[u32], arguments: &[u32], memory: &[u8], limit: u32) {
        let (mut a, mut b) = (memory.to_vec(), memory.to_vec());
        let x = plain::machine::run(tape, arguments, &mut a, limit);
        let y = ribbandage::run(tape, arguments, &mut b, limit);
        use plain::machine::Ran as P;
        use ribbandage::Ran as R;
        let same = match (x, y) {
            (P::Done { value, steps }, Ok(R::Done { value: v, steps: s })) => (value, steps) == (v, s),
            (P::Stopped { steps, record }, Ok(R::Stopped { steps: s, record: r })) => (steps, record) == (s, r),
            (P::Refused(x), Err(y)) => (x.number, x.place) == (y.number, y.place),
            _ => false,
        };
        self.run += 1;
        self.note(same && a == b, "run", tape);
    }

    /// A compiled tape, run to its end, beside the plain meaning.
    fn meaning(&mut self, table: &[u32], tape: &[u32], arguments: &[u32], memory: &[u8]) {
        let (mut a, mut b) = (memory.to_vec(), memory.to_vec());
        let value = plain(table, arguments, &mut a);
        let ran = ribbandage::run(tape, arguments, &mut b, u32::MAX);
        let same = matches!(ran, Ok(ribbandage::Ran::Done { value: v, .. }) if v == value) && a == b;
        self.meant += 1;
        self.note(same, "meaning", table);
    }
}

/// Limits at every edge of a run of so many steps.
fn limits(rng: &mut Rng, steps: u32) -> [u32; 7] {
    [0, 1, rng.below(steps.max(1)), steps.saturating_sub(1), steps, steps.saturating_add(1), u32::MAX]
}

/// A valid table: compiled with room, with too little, with exactly enough; its tape run.
fn valid(rng: &mut Rng, tally: &mut Tally) -> (Vec<u32>, Option<Vec<u32>>) {
    let made = table(rng);
    let Some(tape) = tally.compile(&made.words, 1 << 15) else {
        return (made.words, None);
    };
    for room in [tape.len(), tape.len() - 1, tape.len() + 3, rng.below(tape.len() as u32) as usize] {
        tally.compile(&made.words, room);
    }
    if let Some(steps) = tally.check(&tape) {
        if steps < 200_000 {
            let arguments: Vec<u32> = (0..made.parameters).map(|_| rng.word()).collect();
            let memory: Vec<u8> = (0..made.bytes).map(|_| rng.word() as u8).collect();
            for limit in limits(rng, steps) {
                tally.run(&tape, &arguments, &memory, limit);
            }
            tally.meaning(&made.words, &tape, &arguments, &memory);
            tally.run(&tape, &[arguments.as_slice(), &[1]].concat(), &memory, 10);
            tally.run(&tape, &arguments, &[memory.as_slice(), &[1]].concat(), 10);
        }
    }
    (made.words, Some(tape))
}

/// Each word changed, one at a time, to something near or far; and the table or tape cut short.
fn damaged(rng: &mut Rng, words: &[u32], mut each: impl FnMut(&mut Rng, &[u32])) {
    for at in 0..words.len() {
        let mut changed = words.to_vec();
        changed[at] = match rng.below(6) {
            0 => words[at].wrapping_add(1),
            1 => words[at].wrapping_sub(1),
            2 => rng.below(40),
            3 => rng.below(6),
            4 => rng.word(),
            _ => 0,
        };
        each(rng, &changed);
        if at % 7 == 0 {
            each(rng, &words[..at]);
        }
    }
}

fn tape_case(rng: &mut Rng, tally: &mut Tally, tape: &[u32]) {
    let Some(steps) = tally.check(tape) else {
        tally.run(tape, &[], &[], 5);
        return;
    };
    let Ok(program) = plain::check::check(tape) else { return };
    let arguments: Vec<u32> = (0..program.parameters).map(|_| rng.word()).collect();
    let memory: Vec<u8> = (0..program.bytes).map(|_| rng.word() as u8).collect();
    for limit in limits(rng, steps.min(50_000)) {
        tally.run(tape, &arguments, &memory, limit.min(100_000));
    }
}

fn main() -> ExitCode {
    let wanted: u64 = std::env::args().nth(1).and_then(|n| n.parse().ok()).unwrap_or(500_000);
    let mut rng = Rng::new(0x9e37_79b9_7f4a_7c15);
    let mut tally = Tally::default();
    while tally.cases() < wanted {
        for _ in 0..50 {
            valid(&mut rng, &mut tally);
        }
        let (words, tape) = valid(&mut rng, &mut tally);
        if words.len() < 600 {
            damaged(&mut rng, &words, |rng, t| {
                let room = rng.below(4000) as usize;
                tally.compile(t, room);
            });
        }
        if let Some(tape) = tape.filter(|t| t.len() < 1500) {
            damaged(&mut rng, &tape, |rng, t| tape_case(rng, &mut tally, t));
        }
        for _ in 0..20 {
            let made = tapes::tape(&mut rng);
            tape_case(&mut rng, &mut tally, &made);
        }
    }
    println!(
        "compiled {} (accepted {}), checked {}, run {}, meanings {}: {} cases, {} differ",
        tally.compiled,
        tally.accepted,
        tally.checked,
        tally.run,
        tally.meant,
        tally.cases(),
        tally.differ
    );
    if tally.differ == 0 { ExitCode::SUCCESS } else { ExitCode::FAILURE }
}
