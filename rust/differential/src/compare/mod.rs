//! Answers held to the model, to the crate's types and to the Rust, case by case.

pub mod block;
pub mod bytes;
pub mod causes;
pub mod graft;
pub mod grid;
pub mod keyed;
pub mod nodes;
pub mod records;
pub mod rust;
pub mod sample;
mod tally;

use std::fmt::Debug;
use std::iter::repeat;

use crate::calls::{By, Case};
use crate::random::Random;
use bytes::{same_bytes, untouched};
pub use tally::Tally;

/// Nothing where answers agree, else the first difference.
pub type Held = Result<(), String>;

/// A family of cases.
pub type Family = fn(&mut Comparison, &mut Random) -> Held;

/// One call, held to others case by case.
pub struct Comparison {
    /// Who answers, and writes the trees of samples.
    pub by: By,
    /// The place of a fault that answers get, in the list of the call's faults.
    fault: Option<usize>,
    held_to_model: bool,
    pub tally: Tally,
}

impl Comparison {
    /// The C functions, held to the model, to the crate's types and to the Rust.
    pub fn new(name: &'static str) -> Comparison {
        Comparison {
            by: By::Rattle,
            fault: None,
            held_to_model: true,
            tally: Tally::new(name),
        }
    }

    /// The model, held to the Rust.
    pub fn of_model(name: &'static str) -> Comparison {
        Comparison {
            by: By::Model,
            held_to_model: false,
            ..Comparison::new(name)
        }
    }

    /// The model with a fault, held to the model and to the Rust, or to the Rust alone.
    pub fn of_fault(name: &'static str, fault: usize, held_to_model: bool) -> Comparison {
        Comparison {
            fault: Some(fault),
            held_to_model,
            ..Comparison::of_model(name)
        }
    }

    /// Runs families of cases, all from the same seed.
    pub fn run(&mut self, families: impl IntoIterator<Item = Family>, seed: u64) -> Held {
        families
            .into_iter()
            .try_for_each(|family| family(self, &mut Random::new(seed)))
    }

    /// Holds one case of a class.
    pub fn hold<C: Case>(&mut self, class: &'static str, case: &C) -> Held {
        let shown = || case.to_string();
        let mut lent = case.lend();
        let mut ours = self.by.answer(case, &mut lent);
        if let Some(fault) = self.fault {
            (C::faults()[fault].spoil)(case, &mut ours, &mut lent);
        }
        let written = case.written(&ours).into_iter().chain(repeat(0));
        for (buffer, from) in lent.as_ref().iter().zip(written) {
            untouched(buffer, from, "a buffer behind what is written", shown)?;
        }
        if self.held_to_model {
            let model = |lent: &mut C::Lent| Some(case.model(lent));
            hold_to(case, &ours, &lent, model, "the model")?;
        }
        if self.by == By::Rattle {
            let typed = |lent: &mut C::Lent| Some(case.typed(lent));
            hold_to(case, &ours, &lent, typed, "the crate's types")?;
            let part = |lent: &mut C::Lent| case.without_base(lent);
            hold_to(case, &ours, &lent, part, "the part without a base")?;
            case.hold_others(&ours, &lent)?;
        }
        let held_to_rust = match oracle::AVAILABLE {
            true => case.hold_to_rust(&ours, &lent),
            false => None,
        };
        let with_rust = held_to_rust.is_some();
        held_to_rust.unwrap_or(Ok(()))?;
        self.tally.count(class, ours.as_ref()[0], with_rust);
        self.tally.count_outcome(case.outcome(&ours));
        Ok(())
    }
}

/// Holds an answer, and the buffers after it, to another answer of the case, where there is one.
fn hold_to<C: Case>(
    case: &C,
    ours: &C::Answer,
    lent: &C::Lent,
    other: impl Fn(&mut C::Lent) -> Option<C::Answer>,
    whose: &str,
) -> Held {
    let shown = || case.to_string();
    let mut other_lent = case.lend();
    let Some(theirs) = other(&mut other_lent) else {
        return Ok(());
    };
    same(*ours, theirs, whose, shown)?;
    let mut buffers = lent.as_ref().iter().zip(other_lent.as_ref());
    match buffers.find(|(own, other)| own != other) {
        None => Ok(()),
        Some((own, other)) => same_bytes(own, other, &format!("a buffer of {whose}"), shown),
    }
}

/// Holds an answer to that of another.
pub fn same<A: PartialEq + Debug>(
    ours: A,
    theirs: A,
    whose: &str,
    case: impl Fn() -> String,
) -> Held {
    if ours == theirs {
        return Ok(());
    }
    Err(format!("{}: {ours:?}, and {whose} {theirs:?}", case()))
}
