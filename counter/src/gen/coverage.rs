//! A count of what a generator covered, by kinds announced beforehand.

use std::collections::BTreeMap;
use std::fmt;

/// Every announced kind with the number of times it was made.
#[derive(Clone, Debug, PartialEq, Eq)]
pub struct Coverage {
    counts: BTreeMap<String, usize>,
}

impl Coverage {
    /// Announces kinds, each at none.
    pub fn expecting<K: Into<String>>(kinds: impl IntoIterator<Item = K>) -> Coverage {
        let counts = kinds.into_iter().map(|kind| (kind.into(), 0)).collect();
        Coverage { counts }
    }

    /// Counts a kind; one that was not announced is a slip of the generator.
    pub fn note(&mut self, kind: &str) {
        self.note_times(kind, 1);
    }

    pub fn note_times(&mut self, kind: &str, times: usize) {
        let count = self.counts.get_mut(kind);
        *count.unwrap_or_else(|| panic!("kind not announced: {kind}")) += times;
    }

    pub fn count(&self, kind: &str) -> usize {
        self.counts[kind]
    }

    /// The announced kinds that were never made.
    pub fn empty_kinds(&self) -> Vec<&str> {
        let empty = self.counts.iter().filter(|(_, &count)| count == 0);
        empty.map(|(kind, _)| kind.as_str()).collect()
    }

    /// Adds another report, kind by kind.
    pub fn add(&mut self, other: &Coverage) {
        for (kind, count) in &other.counts {
            *self.counts.entry(kind.clone()).or_insert(0) += count;
        }
    }
}

impl fmt::Display for Coverage {
    fn fmt(&self, f: &mut fmt::Formatter<'_>) -> fmt::Result {
        for (kind, count) in &self.counts {
            writeln!(f, "{count:>9}  {kind}")?;
        }
        Ok(())
    }
}
