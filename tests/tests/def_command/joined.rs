//! What of the metal is joined: pieces of a stage, their gates and sources, parts, loops.

use super::metal::Metal;
use std::collections::HashMap;

impl Metal {
    /// What the stage joins, with one end cut, and an end of each step.
    fn joined(&self, stage: u8, cut: Option<usize>) -> (Sets, Vec<usize>) {
        let mut sets = Sets((0..self.ends).collect());
        let mut ends = Vec::new();
        for &((layer, ..), a, b) in &self.steps {
            // each step has an end of its own where the cut is
            let [a, b] = [a, b].map(|end| match Some(end) == cut {
                true => sets.add(),
                false => end,
            });
            ends.push(a);
            if layer <= stage {
                sets.join(a, b);
            }
        }
        for &(_, a, b) in self.vias.iter().filter(|(layer, ..)| *layer <= stage) {
            sets.join(a, b);
        }
        (sets, ends)
    }

    /// For each step of the stage the first step of its piece, with one end cut.
    pub fn pieces(&self, stage: u8, cut: Option<usize>) -> Vec<Option<usize>> {
        let (mut sets, ends) = self.joined(stage, cut);
        let mut first = HashMap::new();
        let steps = self.steps.iter().enumerate();
        steps
            .map(|(k, (step, ..))| {
                let set = sets.of(ends[k]);
                (step.0 <= stage).then(|| *first.entry(set).or_insert(k))
            })
            .collect()
    }

    /// For each step of the stage the flags of its piece, which are those of all ends in it.
    pub fn flags(&self, stage: u8, cut: Option<usize>, pins: &[(usize, u8)]) -> Vec<Option<u8>> {
        let (mut sets, ends) = self.joined(stage, cut);
        let mut flags: HashMap<usize, u8> = HashMap::new();
        for &(end, of_pin) in pins {
            *flags.entry(sets.of(end)).or_default() |= of_pin;
        }
        let steps = self.steps.iter().zip(ends);
        steps
            .map(|((step, ..), end)| {
                let piece = flags.get(&sets.of(end)).copied().unwrap_or_default();
                (step.0 <= stage).then_some(piece)
            })
            .collect()
    }

    /// It has wires, hangs together, and has no loop.
    pub fn is_tree(&self) -> bool {
        !self.steps.is_empty() && self.parts() == 1 && self.loops() == 0
    }

    /// How many steps or vias could be left out with nothing parted.
    pub fn loops(&self) -> usize {
        self.steps.len() + self.vias.len() + self.parts() - self.ends
    }

    /// The number of parts, vias that touch no wire counted too.
    pub fn parts(&self) -> usize {
        let (mut sets, _) = self.joined(u8::MAX, None);
        (0..self.ends).filter(|&end| sets.of(end) == end).count()
    }
}

/// Sets that are joined, each named by one of its members.
struct Sets(Vec<usize>);

impl Sets {
    fn of(&mut self, mut k: usize) -> usize {
        while self.0[k] != k {
            self.0[k] = self.0[self.0[k]];
            k = self.0[k];
        }
        k
    }

    fn join(&mut self, a: usize, b: usize) {
        let (a, b) = (self.of(a), self.of(b));
        self.0[a] = b;
    }

    /// One more, alone.
    fn add(&mut self) -> usize {
        self.0.push(self.0.len());
        self.0.len() - 1
    }
}
