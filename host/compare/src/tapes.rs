//! Tapes made by hand, so to say: no compiler writes them, and most keep the rules of a tape.
use crate::rng::Rng;

struct Maker<'r> {
    rng: &'r mut Rng,
    words: Vec<u32>,
    arrays: u32,
    known: Vec<u32>,
    slots: u32,
    readable: Vec<bool>,
    settable: Vec<bool>,
}

pub fn tape(rng: &mut Rng) -> Vec<u32> {
    let functions = 1 + rng.below(3);
    let arrays = rng.below(3);
    let mut words = vec![1, functions, arrays, 0];
    for _ in 0..arrays {
        words.extend([2, 1 + rng.below(6), 0, 0]);
    }
    let mut m = Maker { rng, words, arrays, known: vec![], slots: 0, readable: vec![], settable: vec![] };
    for _ in 0..functions {
        let parameters = m.rng.below(4);
        m.slots = parameters + 1 + m.rng.below(6);
        m.put(3, parameters, m.slots, 0);
        m.readable = (0..m.slots).map(|x| x < parameters).collect();
        m.settable = vec![false; m.slots as usize];
        for _ in 0..1 + m.rng.below(4) {
            m.statement(4);
        }
        m.define();
        let x = m.readable_slot();
        m.put(21, x, 0, 0);
        m.known.push(parameters);
    }
    m.words
}

impl Maker<'_> {
    fn put(&mut self, kind: u32, p: u32, q: u32, r: u32) {
        self.words.extend([kind, p, q, r]);
    }

    fn readable_slot(&mut self) -> u32 {
        let fit: Vec<u32> = (0..self.slots).filter(|x| self.readable[*x as usize]).collect();
        if fit.is_empty() || self.rng.one_in(200) { self.rng.below(self.slots) } else { fit[self.rng.below(fit.len() as u32) as usize] }
    }

    fn value(&mut self, depth: u32) {
        match self.rng.below(if depth == 0 { 2 } else { 6 }) {
            0 => {
                let v = self.rng.word();
                self.put(10, v, 0, 0);
            }
            1 => {
                let x = self.readable_slot();
                self.put(11, x, 0, 0);
            }
            2 if self.arrays > 0 => {
                let a = self.rng.below(self.arrays);
                self.value(depth - 1);
                self.put(12, a, 0, 0);
            }
            3 => {
                self.value(depth - 1);
                self.put(13, 0, 0, 0);
            }
            4 if !self.known.is_empty() => {
                let f = self.rng.below(self.known.len() as u32);
                for _ in 0..self.known[f as usize] {
                    self.value(depth - 1);
                }
                self.put(15, f, 0, 0);
            }
            _ => {
                self.value(depth - 1);
                self.value(depth - 1);
                let code = 1 + self.rng.below(13);
                self.put(14, code, 0, 0);
            }
        }
    }

    fn define(&mut self) {
        let free: Vec<u32> = (0..self.slots).filter(|x| !self.readable[*x as usize] || self.settable[*x as usize]).collect();
        if free.is_empty() {
            return;
        }
        let x = free[self.rng.below(free.len() as u32) as usize];
        self.value(3);
        self.put(16, x, 0, 0);
        self.readable[x as usize] = true;
        self.settable[x as usize] = true;
    }

    fn statement(&mut self, depth: u32) {
        match self.rng.below(6) {
            0 | 1 => self.define(),
            2 => {
                let set: Vec<u32> = (0..self.slots).filter(|x| self.settable[*x as usize]).collect();
                if !set.is_empty() {
                    let x = set[self.rng.below(set.len() as u32) as usize];
                    self.value(3);
                    self.put(17, x, 0, 0);
                }
            }
            3 if self.arrays > 0 => {
                let a = self.rng.below(self.arrays);
                self.value(2);
                self.value(2);
                self.put(18, a, 0, 0);
            }
            _ if depth > 0 => self.repeat(depth),
            _ => self.define(),
        }
    }

    fn repeat(&mut self, depth: u32) {
        let free: Vec<u32> = (0..self.slots).filter(|x| !self.readable[*x as usize]).collect();
        if free.is_empty() {
            return;
        }
        let x = free[self.rng.below(free.len() as u32) as usize];
        let from = self.rng.below(4);
        let to = if self.rng.one_in(50) { u32::MAX } else { from + self.rng.below(4) };
        self.put(19, x, from, to);
        let (readable, settable) = (self.readable.clone(), self.settable.clone());
        self.readable[x as usize] = true;
        for _ in 0..1 + self.rng.below(3) {
            self.statement(depth - 1);
        }
        self.put(20, 0, 0, 0);
        (self.readable, self.settable) = (readable, settable);
    }
}
