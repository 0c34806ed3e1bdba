//! One run: what was compared so far.

use crate::numbers::Numbers;
use crate::reached::Reached;
use std::collections::BTreeMap;

/// Counts, and the numbers that the cases of the present kind are made of.
pub struct Run {
    pub numbers: Numbers,
    pub reached: Reached,
    seed: u64,
    kind: &'static str,
    cases: BTreeMap<&'static str, u64>,
    salt: u64,
}

impl Run {
    pub fn new(seed: u64) -> Run {
        Run {
            numbers: Numbers::new(seed, ""),
            reached: Reached::default(),
            seed,
            kind: "",
            cases: BTreeMap::new(),
            salt: seed,
        }
    }

    /// Begins cases of a kind.
    pub fn begin(&mut self, kind: &'static str) {
        self.kind = kind;
        self.numbers = Numbers::new(self.seed, kind);
        self.cases.entry(kind).or_default();
    }

    /// From here on cases are made of another seed.
    pub fn reseed(&mut self, seed: u64) {
        self.seed = seed;
    }

    /// Counts a case of the present kind.
    pub fn case(&mut self) {
        *self.cases.entry(self.kind).or_default() += 1;
    }

    /// Counts a case of another kind, met on the way.
    pub fn also(&mut self, kind: &'static str) {
        *self.cases.entry(kind).or_default() += 1;
    }

    /// Another pattern for what is lent next.
    pub fn salt(&mut self) -> u64 {
        self.salt = self.salt.wrapping_add(0x9E37_79B9);
        self.salt
    }

    /// Where a difference was met.
    pub fn place(&self) -> String {
        format!("kind {}, --seed {}", self.kind, self.seed)
    }

    /// How many cases of each kind were compared.
    pub fn line(&self) -> String {
        let cases = self
            .cases
            .iter()
            .map(|(kind, count)| format!("{kind} {count}"));
        cases.collect::<Vec<_>>().join(", ")
    }

    /// A kind of which no case was compared.
    pub fn empty_kind(&self) -> Option<String> {
        let mut kinds = self.cases.iter();
        let (kind, _) = kinds.find(|(_, &count)| count == 0)?;
        Some(format!("no case of kind {kind} was compared"))
    }
}
