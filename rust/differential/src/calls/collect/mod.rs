//! Collecting: its cases.

mod families;
mod faults;

use std::fmt;

use nuldrafon::raw;

use super::based::{Based, OfTree};
use super::case::{array, within_leaf_checksum, Case, Fault, Told, WITHIN_LEAF_CHECKSUM};
use super::typed;
use crate::compare::bytes::{beginning, pattern, same_bytes};
use crate::compare::{rust, same, Held};
use crate::inputs::Tree;
use crate::model;
pub use families::{
    as_written, at_every_base, behind_blocks, cut, damaged, ending_in_a_leaf, of_any_geometry,
    of_many_records, of_random_graphs, with_made_up_headers, with_several_causes,
};

/// Files up to this long are also collected into a buffer that the crate makes.
const TO_VEC: usize = 1 << 16;

/// A collecting into an output of a length, by a header's figures as they go over and the offset
/// size. Where the output is too short, the Rust, which has none, is asked only if the model finds
/// an end in a larger `room`: a small file can hold a tree that it would read for hours.
#[derive(Clone, Copy)]
pub struct Collecting<'a> {
    pub file: &'a [u8],
    pub header: [u64; 8],
    pub offset_size: u8,
    pub output_length: usize,
    pub room: usize,
}

impl fmt::Display for Collecting<'_> {
    fn fmt(&self, to: &mut fmt::Formatter) -> fmt::Result {
        write!(
            to,
            "{:?}, offset size {}, into {}, {}",
            self.header,
            self.offset_size,
            self.output_length,
            beginning(self.file)
        )
    }
}

impl Based for Collecting<'_> {
    fn file(&self) -> &[u8] {
        self.file
    }

    fn base(&self) -> u64 {
        self.header[7]
    }

    fn at(&self, base: u64) -> Self {
        let mut other = *self;
        other.header[7] = base;
        other
    }
}

impl OfTree for Collecting<'_> {
    fn tree(&self) -> Tree {
        Tree::of_figures(self.header, self.offset_size)
    }
}

impl Case for Collecting<'_> {
    type Answer = [u64; 7];
    type Lent = [Vec<u8>; 1];

    fn lend(&self) -> Self::Lent {
        [pattern(self.output_length)]
    }

    fn rattle(&self, [output]: &mut Self::Lent) -> Self::Answer {
        raw::collect_at(self.file, &self.header, self.offset_size, output)
    }

    fn typed(&self, [output]: &mut Self::Lent) -> Self::Answer {
        typed_answer(typed::header(&self.tree()).collect(self.file, output))
    }

    fn model(&self, [output]: &mut Self::Lent) -> Self::Answer {
        let collected = model::collect(self.file, &self.tree(), output);
        let counts = collected.counts;
        let [number, first, second] = array(collected.answer.map(|()| []));
        [
            number,
            first,
            second,
            counts.records,
            counts.leaves,
            counts.internals,
            counts.internal_records,
        ]
    }

    fn without_base(&self, [output]: &mut Self::Lent) -> Option<Self::Answer> {
        let tree = self.tree();
        Some(raw::collect(
            self.part()?,
            tree.tree_type,
            tree.geometry.node_size,
            tree.geometry.record_size,
            tree.depth,
            tree.root_address,
            tree.root_records,
            tree.total_records,
            tree.geometry.offset_size,
            output,
        ))
    }

    fn written(&self, answer: &Self::Answer) -> Vec<usize> {
        vec![self.put_out(answer)]
    }

    fn outcome(&self, answer: &Self::Answer) -> Option<&'static str> {
        self.within_leaf_checksum(answer, self.output_length)
            .then_some(WITHIN_LEAF_CHECKSUM)
    }

    fn hold_to_rust(&self, ours: &Self::Answer, [output]: &Self::Lent) -> Option<Held> {
        let part = self.part()?;
        let whole = match ours[0] {
            15 => self.model(&mut [vec![0; self.room]]),
            _ => *ours,
        };
        let room = self.room.max(self.output_length);
        if [8, 15, 16].contains(&whole[0]) || self.within_leaf_checksum(&whole, room) {
            return None;
        }
        let case = || self.to_string();
        let theirs = rust::collect(part, &self.tree());
        let refused = theirs.as_ref().err().copied().unwrap_or_default();
        let held = same(&whole[..3], &refused, "the Rust", case);
        Some(held.and_then(|()| match theirs {
            Ok(records) => self.hold_records(ours, output, &records),
            Err(_) => Ok(()),
        }))
    }

    /// The collecting into a buffer that the crate makes: what comes into a lent one as long as the
    /// part of the file.
    fn hold_others(&self, _: &Self::Answer, _: &Self::Lent) -> Held {
        if self.file.len() > TO_VEC {
            return Ok(());
        }
        let case = || format!("{self}, to a vector");
        let lent = &mut [vec![0; self.part().map_or(0, <[u8]>::len)]];
        let answer = self.rattle(lent);
        let collected = typed::header(&self.tree()).collect_to_vec(self.file);
        let counts = collected.as_ref().map(|collected| collected.counts);
        let told = typed_answer(counts.map_err(|error| *error));
        same(told, answer, "the lent", case)?;
        match collected {
            Ok(collected) => {
                let put = &lent[0][..self.put_out(&answer)];
                same_bytes(&collected.records, put, "the lent", case)
            }
            Err(_) => Ok(()),
        }
    }

    fn faults() -> Vec<Fault<Self>> {
        faults::faults()
    }
}

/// The numbers of a collecting by the crate's types.
fn typed_answer(answer: Result<nuldrafon::Counts, nuldrafon::CollectError>) -> [u64; 7] {
    let (told, counts) = match answer {
        Ok(counts) => ([0; 3], counts),
        Err(error) => (error.refusal.told(), error.counts),
    };
    let [number, first, second] = told;
    [
        number,
        first,
        second,
        counts.records,
        counts.leaves,
        counts.internal_nodes,
        counts.internal_records,
    ]
}

impl<'a> Collecting<'a> {
    pub fn of(file: &'a [u8], tree: &Tree, output_length: usize, room: usize) -> Collecting<'a> {
        Collecting {
            file,
            header: tree.figures(),
            offset_size: tree.geometry.offset_size,
            output_length,
            room,
        }
    }

    fn record_size(&self) -> usize {
        self.tree().geometry.record_size.into()
    }

    /// Whether an answer, into an output of this length, is that the file ends within the checksum
    /// of a leaf.
    fn within_leaf_checksum(&self, answer: &[u64; 7], output_length: usize) -> bool {
        let collect = || model::collect(self.file, &self.tree(), &mut vec![0; output_length]);
        answer[0] == 1 && within_leaf_checksum(collect().answer)
    }

    /// The bytes of the records that an answer says were put out.
    fn put_out(&self, answer: &[u64; 7]) -> usize {
        (answer[3] as usize).saturating_mul(self.record_size())
    }

    /// Holds an answer and its output to the Rust's records: those that fit were put out, and 15
    /// came where there are more.
    fn hold_records(&self, ours: &[u64; 7], output: &[u8], records: &[u8]) -> Held {
        let case = || self.to_string();
        let size = self.record_size().max(1);
        let fitting = (output.len() / size * size).min(records.len());
        let put = &output[..self.put_out(ours)];
        same_bytes(put, &records[..fitting], "the Rust's records", case)?;
        let expected = match fitting == records.len() {
            true => [0, 0],
            false => [15, output.len() as u64],
        };
        same([ours[0], ours[1]], expected, "the Rust's records say", case)
    }
}
