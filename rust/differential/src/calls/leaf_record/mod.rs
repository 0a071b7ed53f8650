//! Looks at one leaf: their cases.

mod families;
mod faults;

use std::fmt;

use nuldrafon::{raw, LeafView, Refusal};

use super::based::Based;
use super::case::{array, within_leaf_checksum, Case, Fault, WITHIN_LEAF_CHECKSUM};
use crate::compare::bytes::{beginning, pattern, same_bytes};
use crate::compare::{rust, same, Comparison, Held};
use crate::inputs::Leaf;
use crate::model;
pub use families::{
    as_written, at_every_base, behind_blocks, cut, damaged, of_any_geometry, of_many_bytes,
    with_made_up_numbers,
};

/// The Rust's records of a leaf, or the number and values of its refusal.
pub type Records = Result<Vec<Vec<u8>>, [u64; 3]>;

/// A look at a leaf of a file, and the Rust's records of it where that is asked.
#[derive(Clone, Copy)]
pub struct Look<'a> {
    pub file: &'a [u8],
    pub leaf: Leaf,
    pub index: u64,
    pub output_length: usize,
    pub theirs: Option<&'a Records>,
}

impl<'a> Look<'a> {
    /// The crate's view of the leaf.
    fn view(&self) -> Result<LeafView<'a>, Refusal> {
        let Leaf {
            base,
            address,
            count,
            record_size,
        } = self.leaf;
        match base {
            0 => LeafView::new(self.file, address, count, record_size),
            _ => LeafView::new_at(self.file, base, address, count, record_size),
        }
    }

    /// Whether the file ends within the leaf's checksum.
    fn within_leaf_checksum(&self) -> bool {
        within_leaf_checksum(model::leaf_record(self.file, &self.leaf, 0, &mut []))
    }

    /// What the Rust's records say: an index behind them is that of an empty one, and 15 comes
    /// where the record is longer than the output.
    fn expected<'r>(&self, theirs: &'r Records) -> ([u64; 3], &'r [u8]) {
        let records = match theirs {
            Ok(records) => records,
            Err(refusal) => return (*refusal, &[]),
        };
        let record = records.get(self.index as usize).map_or(&[][..], |r| r);
        match record.len() <= self.output_length {
            true => ([0, record.len() as u64, 0], record),
            false => ([15, self.output_length as u64, 0], &[]),
        }
    }

    /// The record by the crate's view, copied to the front of the output where it fits.
    fn viewed(&self, output: &mut [u8]) -> Result<[u64; 1], Refusal> {
        let view = self.view()?;
        let record = view.record(self.index as usize).unwrap_or_default();
        let too_short = Refusal::OutputTooShort(output.len() as u64);
        let front = output.get_mut(..record.len()).ok_or(too_short)?;
        front.copy_from_slice(record);
        Ok([record.len() as u64])
    }
}

impl fmt::Display for Look<'_> {
    fn fmt(&self, to: &mut fmt::Formatter) -> fmt::Result {
        write!(
            to,
            "record {} of {:?} into {}, {}",
            self.index,
            self.leaf,
            self.output_length,
            beginning(self.file),
        )
    }
}

impl Based for Look<'_> {
    fn file(&self) -> &[u8] {
        self.file
    }

    fn base(&self) -> u64 {
        self.leaf.base
    }

    fn at(&self, base: u64) -> Self {
        let leaf = Leaf { base, ..self.leaf };
        Look { leaf, ..*self }
    }
}

impl Case for Look<'_> {
    type Answer = [u64; 3];
    type Lent = [Vec<u8>; 1];

    fn lend(&self) -> Self::Lent {
        [pattern(self.output_length)]
    }

    fn rattle(&self, [output]: &mut Self::Lent) -> Self::Answer {
        let (leaf, index) = (self.leaf, self.index);
        raw::leaf_record_at(
            self.file,
            leaf.base,
            leaf.address,
            leaf.count,
            leaf.record_size,
            index,
            output,
        )
    }

    fn typed(&self, [output]: &mut Self::Lent) -> Self::Answer {
        array(self.viewed(output))
    }

    fn model(&self, [output]: &mut Self::Lent) -> Self::Answer {
        let length = model::leaf_record(self.file, &self.leaf, self.index, output);
        array(length.map(|length| [length]))
    }

    fn without_base(&self, [output]: &mut Self::Lent) -> Option<Self::Answer> {
        let Leaf {
            address,
            count,
            record_size,
            ..
        } = self.leaf;
        let part = self.part()?;
        Some(raw::leaf_record(
            part,
            address,
            count,
            record_size,
            self.index,
            output,
        ))
    }

    fn written(&self, answer: &Self::Answer) -> Vec<usize> {
        match answer {
            [0, length, _] => vec![*length as usize],
            _ => vec![0],
        }
    }

    fn outcome(&self, answer: &Self::Answer) -> Option<&'static str> {
        let within = answer[0] == 1 && self.within_leaf_checksum();
        within.then_some(WITHIN_LEAF_CHECKSUM)
    }

    fn hold_to_rust(&self, ours: &Self::Answer, [output]: &Self::Lent) -> Option<Held> {
        let (answer, record) = self.expected(self.theirs?);
        let case = || self.to_string();
        let held = same(*ours, answer, "the Rust", case);
        Some(held.and_then(|()| {
            let put = &output[..self.written(ours)[0]];
            same_bytes(put, record, "the Rust's record", case)
        }))
    }

    /// The view's records, one by one, in all and end to end.
    fn hold_others(&self, ours: &Self::Answer, _: &Self::Lent) -> Held {
        let Leaf {
            count, record_size, ..
        } = self.leaf;
        let Ok(view) = self.view() else {
            return Ok(());
        };
        let case = || self.to_string();
        let counts = (view.len(), view.records().len(), view.is_empty());
        let due = (count.into(), count.into(), count == 0);
        same(counts, due, "the view's counts", case)?;
        let there = self.index < count.into();
        let found = view.record(self.index as usize).is_some();
        same(found, there, "the view's record", case)?;
        let lengths = (view.as_bytes().len(), ours[0] == 0 || ours[0] == 15);
        let due = (usize::from(count) * usize::from(record_size), true);
        same(lengths, due, "the view's bytes", case)
    }

    fn faults() -> Vec<Fault<Self>> {
        faults::faults()
    }
}

impl Comparison {
    /// Looks at a leaf, each for an index and with a length of the output. The Rust gives all
    /// records at once; it is not asked where the record size is 0 or the file ends within the
    /// checksum, which it does not refuse.
    pub fn hold_looks(
        &mut self,
        class: &'static str,
        file: &[u8],
        leaf: &Leaf,
        looks: impl IntoIterator<Item = (u64, usize)>,
    ) -> Held {
        let mut look = Look {
            file,
            leaf: *leaf,
            index: 0,
            output_length: 0,
            theirs: None,
        };
        let refuses = leaf.record_size == 0 || look.within_leaf_checksum();
        let with_rust = oracle::AVAILABLE && !refuses;
        let part = look.part().filter(|_| with_rust);
        let theirs = part.map(|part| rust::leaf(part, leaf));
        look.theirs = theirs.as_ref();
        for (index, output_length) in looks {
            let look = Look {
                index,
                output_length,
                ..look
            };
            self.hold(class, &look)?;
        }
        Ok(())
    }
}
