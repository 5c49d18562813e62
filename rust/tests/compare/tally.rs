//! How often each refusal was met, call by call, and each edge that must have been.

use std::collections::BTreeMap;
use std::io::{stdout, Write};

/// All refusals, and 0.
const NUMBERS: usize = zwailmoor::Refusal::ALL.len() + 1;

#[derive(Default)]
pub struct Tally {
    // By number; 0 counts what was accepted.
    numbers: [u64; NUMBERS],
    edges: BTreeMap<&'static str, u64>,
}

impl Tally {
    pub fn count<T>(&mut self, expected: &Result<T, u32>) {
        self.numbers[expected.as_ref().err().map_or(0, |number| *number as usize)] += 1;
    }

    /// Counts an edge: every one that is named must be met at least once.
    pub fn edge(&mut self, name: &'static str, met: bool) {
        *self.edges.entry(name).or_default() += u64::from(met);
    }

    /// How often an edge was met.
    pub fn met(&self, name: &str) -> u64 {
        self.edges[name]
    }

    /// Asserts that an edge was met once in so many cases, or more often.
    pub fn demand(&self, name: &str, times: u64) {
        let (met, cases) = (self.met(name), self.numbers.iter().sum::<u64>());
        assert!(met * times >= cases, "{name}: met in {met} of {cases} cases alone");
    }

    /// Prints the counts, and asserts that these refusals were met, success too, and no others.
    pub fn close(&self, call: &str, seed: u64, refusals: &[usize]) {
        let met = |number: &usize| self.numbers[*number] > 0;
        let refused = (1..NUMBERS)
            .filter(met)
            .map(|number| format!("{number}: {}", self.numbers[number]));
        let edges = self.edges.iter().map(|(name, count)| format!("{name}: {count}"));
        say(&format!(
            "{call}, seed {seed}: {} cases, accepted {}; refused {}; {}",
            self.numbers.iter().sum::<u64>(),
            self.numbers[0],
            refused.collect::<Vec<_>>().join(", "),
            edges.collect::<Vec<_>>().join(", "),
        ));
        let numbers: Vec<usize> = (0..NUMBERS).filter(met).collect();
        let expected: Vec<usize> = [&[0], refusals].concat();
        assert_eq!(
            numbers, expected,
            "{call}: the numbers met are not those that the call can give"
        );
        assert!(self.edges.values().all(|count| *count > 0), "{call}: an edge was not met");
    }
}

/// A line that the test harness does not hold back.
fn say(line: &str) {
    writeln!(stdout(), "{line}").expect("standard output can be written");
}
