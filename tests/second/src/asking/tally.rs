//! What came up, counted: codes by function, places, sides.

use std::collections::BTreeMap;

/// So many numbers of a subject are listed one by one.
const LISTED: usize = 20;

/// Numbers seen, by subject; a subject is a function or something counted beside it.
#[derive(Default)]
pub struct Tally {
    seen: BTreeMap<(&'static str, u64), u64>,
    pub cases: u64,
}

impl Tally {
    pub fn saw(&mut self, subject: &'static str, number: u64) {
        *self.seen.entry((subject, number)).or_default() += 1;
    }

    /// Those of the numbers that never came up.
    pub fn missing(&self, subject: &'static str, numbers: &[u64]) -> Vec<u64> {
        let absent = |&&number: &&u64| !self.seen.contains_key(&(subject, number));
        numbers.iter().filter(absent).copied().collect()
    }

    /// One line: `1234 cases; check 0:600 20:34; …`.
    pub fn line(&self) -> String {
        let mut subjects: Vec<&str> = self.seen.keys().map(|&(subject, _)| subject).collect();
        subjects.dedup();
        let parts = subjects.iter().map(|subject| self.part(subject));
        std::iter::once(format!("{} cases", self.cases)).chain(parts).collect::<Vec<_>>().join("; ")
    }

    /// A subject's numbers with their counts, or only how many there are where that is too long.
    fn part(&self, subject: &str) -> String {
        let seen = self.seen.iter().filter(|((other, _), _)| *other == subject);
        let counts: Vec<String> =
            seen.map(|((_, number), count)| format!("{number}:{count}")).collect();
        if counts.len() > LISTED {
            format!("{subject} {} different", counts.len())
        } else {
            format!("{subject} {}", counts.join(" "))
        }
    }
}
