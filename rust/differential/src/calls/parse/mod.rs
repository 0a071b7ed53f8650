//! The header reader: its cases.

mod families;

use std::fmt;

use nuldrafon::{raw, Header};

use super::based::{self, Based};
use super::case::{array, Case, Fault};
use crate::compare::bytes::beginning;
use crate::compare::{rust, same, Held};
use crate::model;
pub use families::{
    any_bytes, as_written, at_every_base, behind_blocks, cut_or_elsewhere, damaged,
};

/// A header read. The sizes are those of offsets and of lengths.
#[derive(Clone, Copy)]
pub struct Parsing<'a> {
    pub file: &'a [u8],
    pub base: u64,
    pub offset: u64,
    pub sizes: (u8, u8),
}

impl fmt::Display for Parsing<'_> {
    fn fmt(&self, to: &mut fmt::Formatter) -> fmt::Result {
        let Parsing {
            file,
            base,
            offset,
            sizes: (offset_size, length_size),
        } = self;
        write!(
            to,
            "header at {offset} from base {base}, sizes {offset_size} and {length_size}, {}",
            beginning(file)
        )
    }
}

impl Based for Parsing<'_> {
    fn file(&self) -> &[u8] {
        self.file
    }

    fn base(&self) -> u64 {
        self.base
    }

    fn at(&self, base: u64) -> Self {
        Parsing { base, ..*self }
    }
}

impl Case for Parsing<'_> {
    type Answer = [u64; 9];
    type Lent = [Vec<u8>; 0];

    fn lend(&self) -> Self::Lent {
        []
    }

    fn rattle(&self, _: &mut Self::Lent) -> Self::Answer {
        let (offset_size, length_size) = self.sizes;
        raw::parse_at(self.file, self.base, self.offset, offset_size, length_size)
    }

    fn typed(&self, _: &mut Self::Lent) -> Self::Answer {
        let (offset_size, length_size) = self.sizes;
        let header = match self.base {
            0 => Header::parse(self.file, self.offset, offset_size, length_size),
            base => Header::parse_at(self.file, base, self.offset, offset_size, length_size),
        };
        array(header.map(|header| {
            assert_eq!(header.geometry.offset_size, offset_size);
            let figures = header.figures_at();
            assert_eq!(header.figures(), figures[..7]);
            figures
        }))
    }

    fn model(&self, _: &mut Self::Lent) -> Self::Answer {
        let (offset_size, length_size) = self.sizes;
        let tree = model::parse(self.file, self.base, self.offset, offset_size, length_size);
        array(tree.map(|tree| tree.figures()))
    }

    fn without_base(&self, _: &mut Self::Lent) -> Option<Self::Answer> {
        let answer = raw::parse(self.part()?, self.offset, self.sizes.0, self.sizes.1);
        let mut with_base = [0; 9];
        with_base[..8].copy_from_slice(&answer);
        with_base[8] = match answer[0] {
            0 => self.base,
            _ => 0,
        };
        Some(with_base)
    }

    /// The Rust has no base, so the eight numbers before it are compared.
    fn hold_to_rust(&self, ours: &Self::Answer, _: &Self::Lent) -> Option<Held> {
        let theirs = rust::parse(self.part()?, self.offset, self.sizes.0, self.sizes.1);
        Some(same(&ours[..8], &theirs, "the Rust", || self.to_string()))
    }

    fn faults() -> Vec<Fault<Self>> {
        let mut faults = based::faults();
        faults.extend([
            Fault::<Self>::both("an end needed that is not held", |case, answer, _| {
                answer[1] -= u64::from(answer[0] == 1 && case.offset == u64::MAX);
            }),
            Fault::<Self>::both("another checksum computed", |_, answer, _| {
                answer[2] ^= u64::from(answer[0] == 6);
            }),
            Fault::<Self>::both("split percent tested", |case, answer, _| {
                let split = (case.offset as usize).saturating_add(14);
                let split = case.part().and_then(|part| part.get(split));
                if answer[0] == 0 && split.is_some_and(|&split| split != 100) {
                    *answer = [2, 0, 0, 0, 0, 0, 0, 0, 0];
                }
            }),
            Fault::<Self>::model_alone("base 0 in every answer", |_, answer, _| {
                answer[8] = 0;
            }),
            Fault::<Self>::model_alone(
                "a base counted from the header's place",
                |case, answer, _| {
                    if answer[0] == 0 {
                        answer[8] += case.offset;
                    }
                },
            ),
            Fault::<Self>::model_alone("a base in a refused answer", |case, answer, _| {
                answer[8] = case.base;
            }),
        ]);
        faults
    }
}
