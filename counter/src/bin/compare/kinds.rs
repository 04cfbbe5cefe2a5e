//! How many calls of each kind were made; a kind that was announced and never made fails.

use std::collections::{BTreeMap, HashMap};

/// Kinds in the order in which they were announced.
#[derive(Default)]
pub struct Kinds {
    names: Vec<String>,
    places: HashMap<String, usize>,
    counts: Vec<usize>,
    /// Facts that are no call's, as how many states there are.
    facts: Vec<(String, bool)>,
}

impl Kinds {
    pub fn announcing(names: impl IntoIterator<Item = String>) -> Kinds {
        let mut kinds = Kinds::default();
        for name in names {
            kinds.place(&name);
        }
        kinds
    }

    /// The place of a kind; one that nothing announced is one more.
    pub fn place(&mut self, name: &str) -> usize {
        if let Some(&place) = self.places.get(name) {
            return place;
        }
        self.places.insert(name.into(), self.names.len());
        self.names.push(name.into());
        self.counts.push(0);
        self.names.len() - 1
    }

    /// Counts a call for what it is a case of and for its answer.
    pub fn note(&mut self, kinds: [usize; 2]) {
        self.counts[kinds[0]] += 1;
        self.counts[kinds[1]] += 1;
    }

    pub fn fact(&mut self, name: String, holds: bool) {
        self.facts.push((name, holds));
    }

    /// Prints every kind with its count; gives how many passed and failed.
    pub fn report(&self, wrong: impl Iterator<Item = [usize; 2]>) -> (usize, usize) {
        let mut failures: BTreeMap<usize, usize> = BTreeMap::new();
        for kinds in wrong {
            for kind in kinds {
                *failures.entry(kind).or_insert(0) += 1;
            }
        }
        let (mut passed, mut failed) = (0, 0);
        let mut line = |good: bool, text: String| {
            println!("{text}");
            if good {
                passed += 1;
            } else {
                failed += 1;
            }
        };
        for (place, name) in self.names.iter().enumerate() {
            let (count, wrong) = (
                self.counts[place],
                failures.get(&place).copied().unwrap_or(0),
            );
            let verdict = match (count, wrong) {
                (0, _) => "  FAILED: none was made".into(),
                (_, 0) => String::new(),
                _ => format!("  FAILED: {wrong} wrong"),
            };
            line(verdict.is_empty(), format!("{count:>9}  {name}{verdict}"));
        }
        for (name, holds) in &self.facts {
            let verdict = if *holds { "" } else { "  FAILED" };
            line(*holds, format!("{:>9}  {name}{verdict}", ""));
        }
        (passed, failed)
    }
}
