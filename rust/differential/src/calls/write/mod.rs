//! The writing call: its cases.

mod families;
mod faults;

use std::fmt;

use nuldrafon::{raw, Refusal};

use super::case::{array, Case, Fault};
use super::typed;
use crate::compare::bytes::{pattern, same_bytes, UNIFORM};
use crate::compare::{rust, same, Held};
use crate::inputs::Writing;
use crate::model::{self, header_size};
pub use families::{
    at_the_boundaries, of_every_type_and_field_size, of_many_records, on_the_grid,
    with_several_faults,
};

/// Records up to this long are also written into buffers that the crate makes, and into others that
/// are lent.
const SHORT: usize = 1 << 16;

/// How many bytes longer than needed those others are, where the write is accepted.
const LONGER: usize = 9;

/// A write and the lengths of its buffers.
#[derive(Clone, Copy)]
pub struct Draft<'a> {
    pub given: Writing<'a>,
    pub header_length: usize,
    pub image_length: usize,
}

impl<'a> Draft<'a> {
    /// With buffers that the header and the image just fill, or some bytes where there is no plan.
    pub fn exact(given: Writing<'a>) -> Draft<'a> {
        let plan = model::plan(given.record_count, given.geometry);
        let image_size = plan.map(|plan| plan.image_size);
        Draft {
            given,
            header_length: header_size(given.geometry.offset_size, given.length_size),
            image_length: image_size.unwrap_or(64) as usize,
        }
    }

    /// The C function.
    pub fn write_to(&self, header: &mut [u8], image: &mut [u8]) -> [u64; 5] {
        let given = &self.given;
        raw::write(
            given.tree_type,
            given.record_count,
            given.geometry.record_size,
            given.geometry.node_size,
            given.geometry.offset_size,
            given.length_size,
            given.start,
            given.records,
            header,
            image,
        )
    }

    /// The last start that fits its field, for an image as long as the buffer; 0 where none does.
    pub fn last_start(&self) -> u64 {
        let unused_bits = 64 - 8 * u32::from(self.given.geometry.offset_size);
        (u64::MAX >> unused_bits).saturating_sub(self.image_length as u64)
    }
}

impl fmt::Display for Draft<'_> {
    fn fmt(&self, to: &mut fmt::Formatter) -> fmt::Result {
        let given = &self.given;
        write!(
            to,
            "write of {} records at {}, type {}, length size {}, start {}, {} bytes of records, \
             {} for the header, {} for the image",
            given.record_count,
            given.geometry,
            given.tree_type,
            given.length_size,
            given.start,
            given.records.len(),
            self.header_length,
            self.image_length,
        )
    }
}

impl Case for Draft<'_> {
    type Answer = [u64; 5];
    type Lent = [Vec<u8>; 2];

    fn lend(&self) -> Self::Lent {
        [self.header_length, self.image_length].map(pattern)
    }

    fn rattle(&self, [header, image]: &mut Self::Lent) -> Self::Answer {
        self.write_to(header, image)
    }

    fn typed(&self, [header, image]: &mut Self::Lent) -> Self::Answer {
        let plan = typed::request(&self.given).write(header, image);
        array(plan.map(typed::figures))
    }

    fn model(&self, [header, image]: &mut Self::Lent) -> Self::Answer {
        array(model::write(&self.given, header, image).map(|plan| plan.figures()))
    }

    fn written(&self, answer: &Self::Answer) -> Vec<usize> {
        let header = header_size(self.given.geometry.offset_size, self.given.length_size);
        match answer {
            [0, .., image] => vec![header, *image as usize],
            _ => vec![0, 0],
        }
    }

    /// The Rust is asked where the write is accepted, or refused by 10 or 11.
    fn hold_to_rust(&self, ours: &Self::Answer, lent: &Self::Lent) -> Option<Held> {
        matches!(ours[0], 0 | 10 | 11).then(|| self.hold_bytes_to_rust(ours, lent))
    }

    fn hold_others(&self, ours: &Self::Answer, lent: &Self::Lent) -> Held {
        if self.given.records.len() > SHORT {
            return Ok(());
        }
        self.hold_vectors(ours, lent)?;
        UNIFORM
            .into_iter()
            .try_for_each(|byte| self.hold_other_lent(byte, ours, lent))
    }

    fn faults() -> Vec<Fault<Self>> {
        faults::faults()
    }
}

impl Draft<'_> {
    /// The write into buffers that the crate makes: what comes into lent ones that are long enough.
    fn hold_vectors(&self, ours: &[u64; 5], [header, image]: &[Vec<u8>; 2]) -> Held {
        let case = || format!("{self}, to vectors");
        let written = typed::request(&self.given).write_to_vec();
        match (&written, ours[0]) {
            (Ok(written), 0) => {
                let lengths = self.written(ours);
                same_bytes(&written.header, &header[..lengths[0]], "the lent", case)?;
                same_bytes(&written.image, &image[..lengths[1]], "the lent", case)
            }
            // Only the lent buffers were too short.
            (Ok(_), 15) => Ok(()),
            (Err(Refusal::OutputTooShort(_)), _) => Err(format!("{}: refused by 15", case())),
            _ => same(
                array(written.map(|written| typed::figures(written.plan))),
                *ours,
                "the lent",
                case,
            ),
        }
    }

    /// The write into buffers of one byte over and over: it puts the same, and the rest stays.
    fn hold_other_lent(&self, byte: u8, ours: &[u64; 5], lent: &[Vec<u8>; 2]) -> Held {
        let case = || format!("{self}, lent {byte:#x}");
        let written = self.written(ours);
        let lengths = match ours[0] {
            0 => [written[0] + LONGER, written[1] + LONGER],
            _ => [self.header_length, self.image_length],
        };
        let mut other = lengths.map(|length| vec![byte; length]);
        same(self.rattle(&mut other), *ours, "the other lent", case)?;
        for ((other, lent), written) in other.iter().zip(lent).zip(written) {
            same_bytes(&other[..written], &lent[..written], "the other lent", case)?;
            let kept = vec![byte; other.len() - written];
            same_bytes(&other[written..], &kept, "as lent behind it", case)?;
        }
        Ok(())
    }

    /// Holds an answer and the fronts of the buffers after it to what the Rust gives.
    fn hold_bytes_to_rust(&self, ours: &[u64; 5], lent: &[Vec<u8>; 2]) -> Held {
        let case = || self.to_string();
        let theirs = rust::write(&self.given);
        let accepted = (ours[0] == 0).then_some(*ours);
        let rust_answer = theirs.as_ref().map(|(answer, ..)| *answer);
        same(accepted, rust_answer, "the Rust", case)?;
        let Some((_, header, image)) = theirs else {
            return Ok(());
        };
        for (own, other) in lent.iter().zip([header, image]) {
            same_bytes(&own[..other.len()], &other, "the Rust's bytes", case)?;
        }
        Ok(())
    }
}
