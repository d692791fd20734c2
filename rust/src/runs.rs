//! The seven runs that a caller lends: one entry a station.

use crate::jobs::Chance;

/// The path's four runs, the least and greatest reach at each station, and its mark, 32 bits, a bit a point.
#[derive(Clone, Debug, PartialEq, Eq)]
pub struct Runs {
    pub xs: Vec<i32>,
    pub ys: Vec<i32>,
    pub gxs: Vec<i32>,
    pub gys: Vec<i32>,
    pub left: Vec<i32>,
    pub right: Vec<i32>,
    pub marks: Vec<u32>,
}

impl Runs {
    /// Zeros: 2,001 entries have room for every job.
    pub fn zeros(entries: usize) -> Runs {
        let run = || vec![0; entries];
        Runs { xs: run(), ys: run(), gxs: run(), gys: run(), left: run(), right: run(), marks: vec![0; entries] }
    }

    /// Runs of these lengths, each entry by chance, to see what is written.
    pub fn by_chance(chance: &mut Chance, lengths: [usize; 7]) -> Runs {
        let mut run = |length: usize| (0..length).map(|_| chance.word() as i32).collect::<Vec<i32>>();
        let [xs, ys, gxs, gys, left, right, marks] = lengths.map(&mut run);
        Runs { xs, ys, gxs, gys, left, right, marks: marks.into_iter().map(|entry| entry as u32).collect() }
    }

    /// The fewest entries that one of them has.
    pub fn shortest(&self) -> usize {
        let signed = [&self.xs, &self.ys, &self.gxs, &self.gys, &self.left, &self.right];
        signed.iter().fold(self.marks.len(), |fewest, run| fewest.min(run.len()))
    }
}
