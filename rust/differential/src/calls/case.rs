//! A case of a call: what goes in, who answers it, and what can be wrong with an answer.

use std::fmt::{Debug, Display};

use crate::compare::Held;
use crate::model;

/// A case of a call. An answer is the documents' number (0: accepted), then the figures or the
/// values of the refusal, then zeros. It is shown where answers differ.
pub trait Case: Display {
    /// An array of the answer's numbers.
    type Answer: Copy + PartialEq + Debug + AsRef<[u64]> + AsMut<[u64]>;
    /// An array of the buffers that the call may write to.
    type Lent: AsRef<[Vec<u8>]>;

    /// The buffers as they are lent: the pattern of `compare::bytes`.
    fn lend(&self) -> Self::Lent;
    /// The C function.
    fn rattle(&self, lent: &mut Self::Lent) -> Self::Answer;
    /// The crate's types around it.
    fn typed(&self, lent: &mut Self::Lent) -> Self::Answer;
    /// The second implementation.
    fn model(&self, lent: &mut Self::Lent) -> Self::Answer;
    /// Of a call that takes a base: the C function without one, given the part of the file from the
    /// base on, where there is such a part.
    fn without_base(&self, _lent: &mut Self::Lent) -> Option<Self::Answer> {
        None
    }

    /// How many bytes of each lent buffer an answer says were written, none where it is not said;
    /// those behind them stay.
    fn written(&self, _answer: &Self::Answer) -> Vec<usize> {
        Vec::new()
    }

    /// What an answer comes to beside its number, where the suite has to meet each such end.
    fn outcome(&self, _answer: &Self::Answer) -> Option<&'static str> {
        None
    }

    /// Holds an answer and the buffers after it to the Rust; none where that has no answer.
    fn hold_to_rust(&self, _ours: &Self::Answer, _lent: &Self::Lent) -> Option<Held> {
        None
    }

    /// Holds what else the crate has for this call to an answer of the C function.
    fn hold_others(&self, _ours: &Self::Answer, _lent: &Self::Lent) -> Held {
        Ok(())
    }

    /// Faults that the suite has to notice.
    fn faults() -> Vec<Fault<Self>>
    where
        Self: Sized;
}

/// Who answers a case.
#[derive(Debug, Clone, Copy, PartialEq, Eq)]
pub enum By {
    Rattle,
    Model,
}

impl By {
    pub fn answer<C: Case>(self, case: &C, lent: &mut C::Lent) -> C::Answer {
        match self {
            By::Rattle => case.rattle(lent),
            By::Model => case.model(lent),
        }
    }
}

/// What goes wrong after a right answer.
pub struct Fault<C: Case> {
    pub name: &'static str,
    pub shown_by: ShownBy,
    pub spoil: fn(&C, &mut C::Answer, &mut C::Lent),
}

/// Who can show a fault.
#[derive(Debug, Clone, Copy, PartialEq, Eq)]
pub enum ShownBy {
    /// The model, and the Rust where it is there.
    Both,
    /// The model: the Rust does not have what is wrong.
    ModelAlone,
}

impl<C: Case> Fault<C> {
    pub fn both(name: &'static str, spoil: fn(&C, &mut C::Answer, &mut C::Lent)) -> Fault<C> {
        Fault {
            name,
            shown_by: ShownBy::Both,
            spoil,
        }
    }

    pub fn model_alone(
        name: &'static str,
        spoil: fn(&C, &mut C::Answer, &mut C::Lent),
    ) -> Fault<C> {
        Fault {
            name,
            shown_by: ShownBy::ModelAlone,
            spoil,
        }
    }
}

/// Puts the right answer of another case in the place of this one's.
pub fn take<C: Case>(other: &C, answer: &mut C::Answer, lent: &mut C::Lent) {
    *lent = other.lend();
    *answer = other.model(lent);
}

/// Puts a refusal, or the acceptance of nothing, in the place of an answer.
pub fn refuse<C: Case>(case: &C, told: [u64; 3], answer: &mut C::Answer, lent: &mut C::Lent) {
    *lent = case.lend();
    let numbers = answer.as_mut();
    numbers.fill(0);
    numbers[..3].copy_from_slice(&told);
}

/// The names of a call's faults, and who shows them.
pub fn faults<C: Case>() -> Vec<(&'static str, ShownBy)> {
    let faults = C::faults().into_iter();
    faults.map(|fault| (fault.name, fault.shown_by)).collect()
}

/// What an answer comes to where the file ends within the checksum of a leaf. The Rust reads such a
/// leaf unchecked, so it is not asked.
pub const WITHIN_LEAF_CHECKSUM: &str = "within a leaf's checksum";

/// Whether the model is refused so.
pub fn within_leaf_checksum<T>(answer: model::Answer<T>) -> bool {
    answer.is_err_and(|refusal| refusal.within_leaf_checksum)
}

/// Something that tells a refusal's number and values.
pub trait Told {
    fn told(&self) -> [u64; 3];
}

impl Told for model::Refusal {
    fn told(&self) -> [u64; 3] {
        [self.number, self.values[0], self.values[1]]
    }
}

/// 0 and the figures, or a refusal's number and values; then zeros.
pub fn array<const K: usize>(answer: Result<impl AsRef<[u64]>, impl Told>) -> [u64; K] {
    let mut array = [0; K];
    match answer {
        Ok(figures) => {
            let figures = figures.as_ref();
            array[1..=figures.len()].copy_from_slice(figures);
        }
        Err(refusal) => array[..3].copy_from_slice(&refusal.told()),
    }
    array
}
