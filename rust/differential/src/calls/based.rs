//! Calls that take a base, and the faults that each of their suites has to notice.

use super::case::{refuse, take, Case, Fault, WITHIN_LEAF_CHECKSUM};
use crate::inputs::Tree;
use crate::model::LEVEL_LIMIT;

/// A read of the part of a file from a base on.
pub trait Based: Case + Sized {
    /// The whole file.
    fn file(&self) -> &[u8];
    fn base(&self) -> u64;
    /// The same read with another base.
    fn at(&self, base: u64) -> Self;

    /// The part of the file; none where the base is beyond its length.
    fn part(&self) -> Option<&[u8]> {
        self.file().get(usize::try_from(self.base()).ok()?..)
    }
}

/// A read of the tree under a header.
pub trait OfTree: Based {
    /// The header that the figures come to.
    fn tree(&self) -> Tree;
}

/// The faults of every call that takes a base.
pub fn faults<C: Based>() -> Vec<Fault<C>> {
    vec![
        Fault::<C>::both("the base left out", |case, answer, lent| {
            take(&case.at(0), answer, lent);
        }),
        Fault::<C>::both("the base added twice", |case, answer, lent| {
            let twice = case.base().saturating_mul(2);
            take(&case.at(twice), answer, lent);
        }),
        Fault::<C>::model_alone("a base cut to 32 bits", |case, answer, lent| {
            let cut = case.base() % (1 << 32);
            take(&case.at(cut), answer, lent);
        }),
        Fault::<C>::both("a base at the file's end refused", |case, answer, lent| {
            if case.base() == case.file().len() as u64 {
                refuse(case, [18, 0, 0], answer, lent);
            }
        }),
        Fault::<C>::model_alone(
            "a base beyond the file as an early end",
            |case, answer, lent| {
                let length = case.file().len() as u64;
                if case.base() > length {
                    refuse(case, [1, case.base(), length], answer, lent);
                }
            },
        ),
        Fault::<C>::both("an end needed in the whole file", |case, answer, _| {
            let numbers = answer.as_mut();
            if numbers[0] == 1 {
                numbers[1] = numbers[1].saturating_add(case.base());
            }
        }),
        Fault::<C>::both("the length of the whole file", |case, answer, _| {
            let numbers = answer.as_mut();
            if numbers[0] == 1 {
                numbers[2] += case.base();
            }
        }),
    ]
}

/// Those of every call that tests leaves, where a file ends within a leaf's checksum.
pub fn faults_of_leaves<C: Based>() -> Vec<Fault<C>> {
    fn within<C: Case>(case: &C, answer: &C::Answer) -> bool {
        case.outcome(answer) == Some(WITHIN_LEAF_CHECKSUM)
    }
    vec![
        Fault::<C>::model_alone(
            "a leaf without its checksum accepted",
            |case, answer, lent| {
                if within(case, answer) {
                    refuse(case, [0, 0, 0], answer, lent);
                }
            },
        ),
        Fault::<C>::model_alone("three bytes taken for a checksum", |case, answer, _| {
            let three = answer.as_ref()[2] + 1 == answer.as_ref()[1];
            if three && within(case, answer) {
                answer.as_mut()[..3].copy_from_slice(&[6, 0, 0]);
            }
        }),
        Fault::<C>::model_alone("an end needed without the checksum", |case, answer, _| {
            if within(case, answer) {
                answer.as_mut()[1] -= 4;
            }
        }),
    ]
}

/// Those of every call that reads a tree from a base on.
pub fn faults_of_trees<C: OfTree>() -> Vec<Fault<C>> {
    let mut faults = faults();
    faults.extend([
        Fault::<C>::model_alone("18 after an empty tree", |case, answer, lent| {
            if answer.as_ref()[0] == 18 && case.tree().is_empty() {
                refuse(case, [0, 0, 0], answer, lent);
            }
        }),
        Fault::<C>::model_alone("18 after 8", |case, answer, lent| {
            let tree = case.tree();
            if answer.as_ref()[0] == 18 && !tree.is_empty() && tree.geometry.record_size == 0 {
                refuse(case, [8, 0, 0], answer, lent);
            }
        }),
        Fault::<C>::model_alone("18 after 16", |case, answer, lent| {
            let tree = case.tree();
            if answer.as_ref()[0] == 18 && !tree.is_empty() && tree.depth > LEVEL_LIMIT {
                refuse(case, [16, tree.depth.into(), 0], answer, lent);
            }
        }),
    ]);
    faults
}
