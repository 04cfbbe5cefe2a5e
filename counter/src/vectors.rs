//! Version vectors after Table 2.1 of source document 000; a counter is a u64, unbounded in practice.

use crate::answers::{Comparison, Superfluous};

/// One vector of counters for each copy: `vectors[i][k]` is what copy i knows of copy k.
#[derive(Clone, Debug, PartialEq, Eq)]
pub struct VersionVectors {
    pub vectors: Vec<Vec<u64>>,
}

impl VersionVectors {
    /// Initialization: every counter is 0.
    pub fn new(n: usize) -> VersionVectors {
        let vectors = vec![vec![0; n]; n];
        VersionVectors { vectors }
    }

    pub fn copies(&self) -> usize {
        self.vectors.len()
    }

    /// Update: copy a counts one more update of its own.
    pub fn update(&mut self, a: usize) {
        self.vectors[a][a] += 1;
    }

    /// Synchronization: both take the greater counter, place by place.
    pub fn meet(&mut self, a: usize, b: usize) {
        for k in 0..self.copies() {
            let joined = self.vectors[a][k].max(self.vectors[b][k]);
            self.vectors[a][k] = joined;
            self.vectors[b][k] = joined;
        }
    }

    /// Comparison of a against b by counters.
    pub fn compare(&self, a: usize, b: usize) -> Comparison {
        let (va, vb) = (&self.vectors[a], &self.vectors[b]);
        let some_behind = (0..self.copies()).any(|k| va[k] < vb[k]);
        let some_ahead = (0..self.copies()).any(|k| va[k] > vb[k]);
        Comparison::from_parts(some_behind, some_ahead)
    }

    /// The copies whose vector some other copy's vector dominates.
    pub fn superfluous(&self) -> Superfluous {
        let dominated = |i: usize| {
            (0..self.copies()).any(|j| {
                j != i && (0..self.copies()).all(|k| self.vectors[j][k] >= self.vectors[i][k])
            })
        };
        let copies: Vec<usize> = (0..self.copies()).filter(|&i| dominated(i)).collect();
        Superfluous::of(&copies)
    }
}
