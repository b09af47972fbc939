//! Counts what a comparison has met, by name.

use std::collections::BTreeMap;

#[derive(Default)]
pub struct Kinds {
    met: BTreeMap<String, usize>,
}

impl Kinds {
    pub fn meet(&mut self, kind: &str) {
        match self.met.get_mut(kind) {
            Some(times) => *times += 1,
            None => {
                self.met.insert(kind.to_string(), 1);
            }
        }
    }

    /// Adds what another has met.
    pub fn add(&mut self, other: Kinds) {
        for (kind, times) in other.met {
            *self.met.entry(kind).or_default() += times;
        }
    }

    pub fn print(&self) {
        for (kind, times) in &self.met {
            println!("  {times:6}  {kind}");
        }
    }

    pub fn times(&self, kind: &str) -> usize {
        self.met.get(kind).copied().unwrap_or(0)
    }

    /// Fails if something was met less often.
    pub fn require(&self, kind: &str, often_enough: usize) {
        let met = self.times(kind);
        assert!(met >= often_enough, "{kind}: only {met} times");
    }
}
