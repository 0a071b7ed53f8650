//! The record types whose fields are known, for cases at the limits of each.

use std::ops::Range;

use crate::inputs::RecordValues;
use crate::model::largest;
use crate::random::Random;

/// A type of records.
pub struct RecordType {
    pub number: u8,
    pub name: &'static str,
    /// The places of its fields, in the order of the record.
    pub places: &'static [Range<usize>],
    /// The widths of name hash, heap id, message flags and creation order.
    pub widths: [u8; 4],
}

pub static TYPES: [RecordType; 4] = [
    RecordType {
        number: 5,
        name: NAMES[0],
        places: &[0..4, 4..11],
        widths: [4, 7, 0, 0],
    },
    RecordType {
        number: 6,
        name: NAMES[1],
        places: &[0..8, 8..15],
        widths: [0, 7, 0, 8],
    },
    RecordType {
        number: 8,
        name: NAMES[2],
        places: &[0..8, 8..9, 9..13, 13..17],
        widths: [4, 8, 1, 4],
    },
    RecordType {
        number: 9,
        name: NAMES[3],
        places: &[0..8, 8..9, 9..13],
        widths: [0, 8, 1, 4],
    },
];

pub const NAMES: [&str; 4] = ["type 5", "type 6", "type 8", "type 9"];

impl RecordType {
    /// The type with this number, where its fields are known.
    pub fn of(number: u8) -> Option<&'static RecordType> {
        TYPES.iter().find(|one| one.number == number)
    }

    /// One of them.
    pub fn any(random: &mut Random) -> &'static RecordType {
        &TYPES[random.up_to(3) as usize]
    }

    /// The length of its records.
    pub fn length(&self) -> usize {
        self.widths.iter().copied().map(usize::from).sum()
    }

    /// The largest value of each field, 0 where the type lacks it.
    pub fn largest(&self) -> [u64; 4] {
        self.widths.map(|width| largest(width) as u64)
    }

    /// Values that fit, but for one in few.
    pub fn any_values(&self, random: &mut Random) -> RecordValues {
        RecordValues::of_figures(self.largest().map(|most| match random.up_to(19) {
            0 => random.any_magnitude(u64::MAX),
            1 => most,
            2 => most.saturating_add(1),
            _ => random.any_magnitude(most),
        }))
    }

    /// Turns the bytes of each field of a record around.
    pub fn turn(&self, record: &mut [u8]) {
        for place in self.places {
            record[place.clone()].reverse();
        }
    }
}

/// Numbers at the limits of fields of every width, and with one bit or one byte that is not 0;
/// rising, each once.
pub fn limits() -> Vec<u64> {
    let widths = (0..=8).map(|width| largest(width) as u64);
    let around = widths.flat_map(|most| [most, most.wrapping_add(1), most.wrapping_add(2)]);
    let bits = (0..64).map(|bit| 1 << bit);
    let bytes = (0..8).map(|byte| 0xff << (8 * byte));
    let mut numbers: Vec<u64> = around.chain(bits).chain(bytes).collect();
    numbers.sort_unstable();
    numbers.dedup();
    numbers
}
