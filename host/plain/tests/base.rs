//! The outside cases, through the independent implementation.
use plain::compile::compile;
use plain::machine::{run, Ran};
use plain::meaning::plain;
use plain::Refusal;

struct Reader {
    file: Vec<u8>,
    at: usize,
}

impl Reader {
    fn byte(&mut self) -> u8 {
        self.at += 1;
        self.file[self.at - 1]
    }

    fn number(&mut self) -> u64 {
        let (mut value, mut shift) = (0, 0);
        loop {
            let b = self.byte();
            value |= ((b & 127) as u64) << shift;
            shift += 7;
            if b < 128 {
                return value;
            }
        }
    }

    fn words(&mut self) -> Vec<u32> {
        (0..self.number()).map(|_| self.number() as u32).collect()
    }

    fn bytes(&mut self) -> Vec<u8> {
        (0..self.number()).map(|_| self.byte()).collect()
    }

    fn changes(&mut self, memory: &mut [u8]) {
        for _ in 0..self.number() {
            let place = self.number() as usize;
            memory[place] = self.byte();
        }
    }
}

#[test]
fn base() {
    let path = concat!(env!("CARGO_MANIFEST_DIR"), "/../../crates/vectors/data/base.bin");
    let mut r = Reader { file: std::fs::read(path).unwrap(), at: 4 };
    assert_eq!(r.number(), 1);
    let (mut table, mut tape) = (vec![], vec![]);
    for case in 0..r.number() {
        match r.number() {
            1 => {
                let mut out = vec![7u32; r.number() as usize];
                let given = r.words();
                let answer = compile(&given, &mut out);
                if r.number() == 0 {
                    let wanted = r.words();
                    let got = answer.unwrap_or_else(|x| panic!("case {case}: {x:?}"));
                    assert_eq!((got.records * 4, got.steps as u64), (wanted.len(), r.number()), "case {case}");
                    assert_eq!(out[..wanted.len()], wanted, "case {case}");
                    assert!(out[wanted.len()..].iter().all(|w| *w == 7));
                    (table, tape) = (given, wanted);
                } else {
                    let wanted = Refusal { number: r.number() as u32, place: r.number() as usize };
                    assert_eq!(answer, Err(wanted), "case {case}");
                    assert!(out.iter().all(|w| *w == 7));
                }
            }
            3 => {
                let (arguments, mut memory) = (r.words(), r.bytes());
                let mut expected = memory.clone();
                let value = plain(&table, &arguments, &mut memory);
                assert_eq!(value as u64, r.number(), "case {case}");
                r.changes(&mut expected);
                assert_eq!(memory, expected);
            }
            kind => {
                if kind == 2 {
                    tape = r.words();
                }
                let (arguments, mut memory) = (r.words(), r.bytes());
                let mut expected = memory.clone();
                let limit = r.number() as u32;
                let (kind, a, b) = (r.number(), r.number() as u32, r.number());
                let wanted = match kind {
                    0 => Ran::Done { value: a, steps: b as u32 },
                    1 => Ran::Stopped { steps: a, record: b as usize },
                    _ => Ran::Refused(Refusal { number: a, place: b as usize }),
                };
                if kind < 2 {
                    r.changes(&mut expected);
                }
                assert_eq!(run(&tape, &arguments, &mut memory, limit), wanted, "case {case}");
                assert_eq!(memory, expected, "case {case}");
            }
        }
    }
    assert_eq!(r.at, r.file.len());
}
