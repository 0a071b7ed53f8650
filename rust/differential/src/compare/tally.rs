//! What was compared: cases by class and answers by number.

use std::collections::BTreeMap;
use std::fmt;

pub struct Tally {
    name: &'static str,
    classes: Vec<(&'static str, u64)>,
    /// The cases that were answered with each number: 0 or that of a refusal.
    answers: BTreeMap<u64, u64>,
    /// The cases by what their answers came to, where that is told.
    outcomes: BTreeMap<&'static str, u64>,
    /// The cases that were held to the Rust too.
    rust: u64,
}

impl Tally {
    pub fn new(name: &'static str) -> Tally {
        Tally {
            name,
            classes: Vec::new(),
            answers: BTreeMap::new(),
            outcomes: BTreeMap::new(),
            rust: 0,
        }
    }

    /// Counts a case of a class that was answered with a number.
    pub fn count(&mut self, class: &'static str, number: u64, with_rust: bool) {
        match self.classes.iter_mut().find(|(known, _)| *known == class) {
            Some((_, cases)) => *cases += 1,
            None => self.classes.push((class, 1)),
        }
        *self.answers.entry(number).or_default() += 1;
        self.rust += u64::from(with_rust);
    }

    /// Counts what the answer of a case came to.
    pub fn count_outcome(&mut self, outcome: Option<&'static str>) {
        if let Some(outcome) = outcome {
            *self.outcomes.entry(outcome).or_default() += 1;
        }
    }

    /// All cases.
    pub fn cases(&self) -> u64 {
        self.answers.values().sum()
    }

    /// The cases that were held to the Rust too.
    pub fn with_rust(&self) -> u64 {
        self.rust
    }

    /// Those of the numbers that were never answered.
    pub fn missing(&self, numbers: &[u64]) -> Vec<u64> {
        let unmet = |number: &&u64| !self.answers.contains_key(number);
        numbers.iter().filter(unmet).copied().collect()
    }

    /// Those of the outcomes that never came.
    pub fn missing_outcomes(&self, outcomes: &[&'static str]) -> Vec<&'static str> {
        let unmet = |outcome: &&&str| !self.outcomes.contains_key(**outcome);
        outcomes.iter().filter(unmet).copied().collect()
    }
}

impl fmt::Display for Tally {
    fn fmt(&self, to: &mut fmt::Formatter) -> fmt::Result {
        let classes: Vec<String> = self
            .classes
            .iter()
            .map(|(class, cases)| format!("{class} {cases}"))
            .collect();
        let refused: Vec<String> = self
            .answers
            .iter()
            .filter(|(&number, _)| number != 0)
            .map(|(number, cases)| format!("{number}: {cases}"))
            .collect();
        write!(
            to,
            "{}: {} cases ({}), {} also held to the Rust; accepted {}, refused by {}",
            self.name,
            self.cases(),
            classes.join(", "),
            self.rust,
            self.answers.get(&0).unwrap_or(&0),
            refused.join(", "),
        )?;
        for (outcome, cases) in &self.outcomes {
            write!(to, "; {outcome} {cases}")?;
        }
        Ok(())
    }
}
