//! Records written by their meaning: their cases.

mod families;
mod faults;

use std::fmt;

use nuldrafon::raw;

use super::case::{array, Case, Fault};
use super::typed;
use crate::compare::bytes::{pattern, same_bytes};
use crate::compare::records::RecordType;
use crate::compare::{same, Held};
use crate::inputs::RecordValues;
use crate::model;
pub use families::{
    at_the_limits_of_fields, into_long_outputs, of_any_values, with_several_causes,
    with_values_combined,
};

/// A write of a record and the length of its output. The Rust has no such call: the model alone
/// answers it beside the C function.
#[derive(Clone, Copy)]
pub struct RecordDraft {
    pub tree_type: u8,
    pub values: RecordValues,
    pub output_length: usize,
}

impl fmt::Display for RecordDraft {
    fn fmt(&self, to: &mut fmt::Formatter) -> fmt::Result {
        write!(
            to,
            "record of type {} from {:?} into {}",
            self.tree_type, self.values, self.output_length
        )
    }
}

impl Case for RecordDraft {
    type Answer = [u64; 3];
    type Lent = [Vec<u8>; 1];

    fn lend(&self) -> Self::Lent {
        [pattern(self.output_length)]
    }

    fn rattle(&self, [output]: &mut Self::Lent) -> Self::Answer {
        let [name_hash, heap_id, flags, order] = self.values.figures();
        raw::record_write(self.tree_type, name_hash, heap_id, flags, order, output)
    }

    fn typed(&self, [output]: &mut Self::Lent) -> Self::Answer {
        let length = typed::values(&self.values).write(self.tree_type, output);
        array(length.map(|length| [length as u64]))
    }

    fn model(&self, [output]: &mut Self::Lent) -> Self::Answer {
        let length = model::record_write(self.tree_type, &self.values, output);
        array(length.map(|length| [length]))
    }

    fn written(&self, answer: &Self::Answer) -> Vec<usize> {
        match answer {
            [0, length, _] => vec![*length as usize],
            _ => vec![0],
        }
    }

    fn outcome(&self, answer: &Self::Answer) -> Option<&'static str> {
        let known = RecordType::of(self.tree_type)?;
        (answer[0] == 0).then_some(known.name)
    }

    /// The record in a buffer that the crate makes, which is never too short; and the record that
    /// was written, read by the C function: the values come back.
    fn hold_others(&self, ours: &Self::Answer, [output]: &Self::Lent) -> Held {
        let case = || self.to_string();
        let record = match typed::values(&self.values).write_to_vec(self.tree_type) {
            Ok(record) => record,
            Err(refusal) => return same(ours[0], refusal.number(), "the crate's record", case),
        };
        same(matches!(ours[0], 0 | 15), true, "the crate's record", case)?;
        if ours[0] == 0 {
            let written = &output[..self.written(ours)[0]];
            same_bytes(written, &record, "the crate's record", case)?;
        }
        let [name_hash, heap_id, flags, order] = self.values.figures();
        let back = raw::record_read(self.tree_type, &record);
        let due = [0, name_hash, heap_id, flags, order];
        same(due, back, "the record, read,", case)
    }

    fn faults() -> Vec<Fault<Self>> {
        faults::faults()
    }
}
