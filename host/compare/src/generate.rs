//! Script tables, made as trees are: mostly valid, with a slip of scope or type now and then.
use crate::rng::Rng;

pub struct Made {
    pub words: Vec<u32>,
    pub parameters: u32,
    pub bytes: usize,
}

struct Maker<'r> {
    rng: &'r mut Rng,
    words: Vec<u32>,
    arrays: u32,
    /// Parameters of the functions before this one.
    known: Vec<u32>,
    slots: u32,
    /// Of each slot: its type (whether it is a boolean) where it is visible, and whether it may be set.
    visible: Vec<Option<(bool, bool)>>,
    declared: Vec<bool>,
    stores: bool,
    loops: u32,
    budget: u32,
}

pub fn table(rng: &mut Rng) -> Made {
    let functions = 1 + rng.below(3);
    let arrays = rng.below(3);
    let mut words = vec![1, functions, arrays, 0];
    let mut bytes = 0;
    for _ in 0..arrays {
        let length = 1 + rng.below(9);
        words.extend([2, length, 0, 0]);
        bytes += length as usize;
    }
    let mut m = Maker { rng, words, arrays, known: vec![], slots: 0, visible: vec![], declared: vec![], stores: false, loops: 0, budget: 0 };
    let mut parameters = 0;
    for f in 0..functions {
        parameters = m.rng.below(4);
        m.slots = parameters + m.rng.below(7);
        m.words.extend([3, parameters, m.slots, 0]);
        m.visible = (0..m.slots).map(|x| (x < parameters).then_some((false, false))).collect();
        m.declared = (0..m.slots).map(|x| x < parameters).collect();
        m.stores = f + 1 == functions || m.rng.one_in(40);
        m.loops = 0;
        m.budget = 10 + m.rng.below(30);
        m.statement(5, true);
        m.known.push(parameters);
    }
    Made { words: m.words, parameters, bytes }
}

impl Maker<'_> {
    fn put(&mut self, kind: u32, p: u32, q: u32, r: u32) {
        self.words.extend([kind, p, q, r]);
    }

    /// A slot that is visible, of this type where one is; now and then any slot.
    fn slot(&mut self, boolean: bool) -> Option<u32> {
        if self.slots > 0 && self.rng.one_in(150) {
            return Some(self.rng.below(self.slots));
        }
        let fit: Vec<u32> = (0..self.slots).filter(|x| matches!(self.visible[*x as usize], Some((b, _)) if b == boolean)).collect();
        (!fit.is_empty()).then(|| fit[self.rng.below(fit.len() as u32) as usize])
    }

    fn expression(&mut self, depth: u32, boolean: bool) {
        let boolean = boolean != self.rng.one_in(400);
        if depth == 0 || self.rng.one_in(3) {
            match self.slot(boolean) {
                Some(x) if !self.rng.one_in(3) => self.put(23, x, 0, 0),
                _ if boolean => {
                    let kind = 21 + self.rng.below(2);
                    self.put(kind, 0, 0, 0);
                }
                _ => {
                    let value = self.rng.word();
                    self.put(20, value, 0, 0);
                }
            }
            return;
        }
        let d = depth - 1;
        if boolean {
            match self.rng.below(4) {
                0 => {
                    self.put(25, 0, 0, 0);
                    self.expression(d, true);
                }
                1 => {
                    let code = 10 + self.rng.below(4);
                    self.pair(code, d, false);
                }
                2 => {
                    let (code, sides) = (8 + self.rng.below(2), self.rng.one_in(2));
                    self.pair(code, d, sides);
                }
                _ => {
                    let code = [6, 7, 14, 15][self.rng.below(4) as usize];
                    self.pair(code, d, true);
                }
            }
            return;
        }
        match self.rng.below(6) {
            0 => {
                self.put(26, 0, 0, 0);
                self.expression(d, false);
            }
            1 if self.arrays > 0 => {
                let a = self.rng.below(self.arrays);
                self.put(24, a, 0, 0);
                self.expression(d, false);
            }
            2 if !self.known.is_empty() => {
                let f = self.rng.below(self.known.len() as u32);
                self.put(28, f, 0, 0);
                for _ in 0..self.known[f as usize] {
                    self.expression(d, false);
                }
            }
            _ => {
                let code = 1 + self.rng.below(7);
                self.pair(code, d, false);
            }
        }
    }

    fn pair(&mut self, code: u32, depth: u32, boolean: bool) {
        self.put(27, code, 0, 0);
        self.expression(depth, boolean);
        self.expression(depth, boolean);
    }

    /// A slot that is free to be declared; now and then one that is not.
    fn fresh(&mut self) -> Option<u32> {
        let free: Vec<u32> = (0..self.slots).filter(|x| !self.declared[*x as usize]).collect();
        if self.slots > 0 && self.rng.one_in(100) {
            return Some(self.rng.below(self.slots));
        }
        (!free.is_empty()).then(|| free[self.rng.below(free.len() as u32) as usize])
    }

    fn statement(&mut self, depth: u32, whole: bool) {
        self.budget = self.budget.saturating_sub(1);
        let choice = if whole { 2 } else { self.rng.below(9) };
        match choice {
            0 => self.put(30, 0, 0, 0),
            2 | 3 if depth > 0 && self.budget > 0 => {
                let n = 2 + self.rng.below(4);
                self.put(31, n, 0, 0);
                for _ in 0..n {
                    self.statement(depth - 1, false);
                }
            }
            4 => self.define(),
            5 => self.assign(),
            6 if self.stores && self.arrays > 0 => {
                let a = self.rng.below(self.arrays);
                self.put(34, a, 0, 0);
                self.expression(2, false);
                self.expression(3, false);
            }
            7 if depth > 0 && self.loops < 3 && self.budget > 0 => self.repeat(depth),
            8 if depth > 0 && self.budget > 0 => self.branch(depth),
            _ => {
                self.put(37, 0, 0, 0);
                self.expression(3, false);
            }
        }
    }

    fn define(&mut self) {
        let Some(x) = self.fresh() else { return self.put(30, 0, 0, 0) };
        let boolean = self.rng.one_in(3);
        self.put(32, x, 0, 0);
        self.expression(3, boolean);
        self.visible[x as usize] = Some((boolean, true));
        self.declared[x as usize] = true;
    }

    fn assign(&mut self) {
        let set: Vec<u32> = (0..self.slots).filter(|x| matches!(self.visible[*x as usize], Some((_, true)))).collect();
        if set.is_empty() && !self.rng.one_in(60) {
            return self.put(30, 0, 0, 0);
        }
        let x = if set.is_empty() { self.rng.below(self.slots) } else { set[self.rng.below(set.len() as u32) as usize] };
        let boolean = matches!(self.visible.get(x as usize), Some(Some((true, _))));
        self.put(33, x, 0, 0);
        self.expression(4, boolean);
    }

    fn repeat(&mut self, depth: u32) {
        let Some(x) = self.fresh() else { return self.put(30, 0, 0, 0) };
        let from = self.rng.below(5);
        let to = if self.rng.one_in(60) { u32::MAX } else { (from + self.rng.below(5)).saturating_sub(self.rng.one_in(80) as u32) };
        self.put(35, x, from, to);
        let before = self.visible.clone();
        self.visible[x as usize] = Some((false, false));
        self.declared[x as usize] = true;
        self.loops += 1;
        self.statement(depth - 1, false);
        self.loops -= 1;
        self.visible = before;
    }

    fn branch(&mut self, depth: u32) {
        self.put(36, 0, 0, 0);
        self.expression(3, true);
        for _ in 0..2 {
            let before = self.visible.clone();
            self.statement(depth - 1, false);
            self.visible = before;
        }
    }
}
