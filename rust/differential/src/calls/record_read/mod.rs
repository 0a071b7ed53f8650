//! Records read by their meaning: their cases.

mod families;
mod faults;

use std::fmt;

use nuldrafon::{raw, RecordValues};

use super::case::{array, Case, Fault};
use super::typed;
use crate::compare::bytes::{beginning, same_bytes};
use crate::compare::records::RecordType;
use crate::compare::{same, Held};
use crate::model;
pub use families::{of_any_bytes, of_every_byte, of_every_type_and_length, of_long_records};

/// A read of a record. The Rust has no such call: the model alone answers it beside the C function.
#[derive(Clone, Copy)]
pub struct RecordReading<'a> {
    pub tree_type: u8,
    pub record: &'a [u8],
}

impl fmt::Display for RecordReading<'_> {
    fn fmt(&self, to: &mut fmt::Formatter) -> fmt::Result {
        let record = beginning(self.record);
        write!(to, "record of type {}, {record}", self.tree_type)
    }
}

impl Case for RecordReading<'_> {
    type Answer = [u64; 5];
    type Lent = [Vec<u8>; 0];

    fn lend(&self) -> Self::Lent {
        []
    }

    fn rattle(&self, _: &mut Self::Lent) -> Self::Answer {
        raw::record_read(self.tree_type, self.record)
    }

    fn typed(&self, _: &mut Self::Lent) -> Self::Answer {
        let values = RecordValues::read(self.tree_type, self.record);
        array(values.map(typed::figures_of_record))
    }

    fn model(&self, _: &mut Self::Lent) -> Self::Answer {
        let values = model::record_read(self.tree_type, self.record);
        array(values.map(|values| values.figures()))
    }

    fn outcome(&self, answer: &Self::Answer) -> Option<&'static str> {
        let known = RecordType::of(self.tree_type)?;
        (answer[0] == 0).then_some(known.name)
    }

    /// What was read is written, by the C function: the record comes back.
    fn hold_others(&self, ours: &Self::Answer, _: &Self::Lent) -> Held {
        let &[0, name_hash, heap_id, flags, order] = ours else {
            return Ok(());
        };
        let case = || self.to_string();
        let mut back = vec![0; self.record.len()];
        let answer = raw::record_write(self.tree_type, name_hash, heap_id, flags, order, &mut back);
        let due = [0, self.record.len() as u64, 0];
        same(answer, due, "what was read, written,", case)?;
        same_bytes(&back, self.record, "the record that was read", case)
    }

    fn faults() -> Vec<Fault<Self>> {
        faults::faults()
    }
}
