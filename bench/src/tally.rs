//! What a test met, for its one line of summary.
use crate::Refusal;
use std::collections::BTreeMap;

/// How many calls were compared, how many of them accepted, and how many refused by each number.
#[derive(Default)]
pub struct Tally {
    pub cases: u64,
    pub accepted: u64,
    pub refused: BTreeMap<u32, u64>,
}

impl Tally {
    pub fn add<T>(&mut self, answer: &Result<T, Refusal>) {
        self.cases += 1;
        match answer {
            Ok(_) => self.accepted += 1,
            Err(r) => *self.refused.entry(r.number).or_insert(0) += 1,
        }
    }

    /// The line, with what the test has to add; stops where one of the numbers never came, or another one did.
    pub fn report(&self, name: &str, more: &str, numbers: &[u32]) {
        let Tally { cases, accepted, refused } = self;
        println!("{name}: {cases} cases agree, {accepted} of them accepted{more}; refused by number: {refused:?}");
        let met: Vec<u32> = refused.keys().copied().collect();
        assert_eq!(met, numbers, "{name}: the numbers that were met, and those that can be");
    }
}
