//! The header reader: the families of cases.

use super::Parsing;
use crate::compare::block;
use crate::compare::sample::{self, for_each, for_some_behind_blocks, Sample};
use crate::compare::{grid, same, Comparison, Held};
use crate::model::lookup3;
use crate::random::Random;

const TREES: usize = 10_000;
const RANDOM: usize = 100_000;
const SUM: usize = 4;

/// Headers that the subject and the Rust wrote, at any geometry, read as they were written.
pub fn as_written(to: &mut Comparison, random: &mut Random) -> Held {
    for _ in 0..TREES {
        if let Some(sample) = sample::any(to.by, random) {
            to.hold_written("as written", &sample)?;
        }
    }
    Ok(())
}

/// The read of a sample's header.
fn header_of(sample: &Sample) -> Parsing<'_> {
    Parsing {
        file: &sample.file,
        base: sample.tree.base,
        offset: sample.header_at as u64,
        sizes: (sample.tree.geometry.offset_size, sample.length_size),
    }
}

impl Comparison {
    /// Holds the read of a sample's header to what was written, too.
    fn hold_written(&mut self, class: &'static str, sample: &Sample) -> Held {
        let case = header_of(sample);
        self.hold(class, &case)?;
        let answer = self.by.answer(&case, &mut []);
        let shown = || format!("header of {:?}", sample.tree);
        same(
            &answer[1..],
            &sample.tree.figures(),
            "what was written",
            shown,
        )
    }
}

/// Every field size, and every end and offset of the file.
pub fn cut_or_elsewhere(to: &mut Comparison, random: &mut Random) -> Held {
    for_each(to, random, |to, sample, _| {
        let whole = header_of(sample);
        let Parsing { file, sizes, .. } = whole;
        for length in 0..file.len().min(sample.header_at + 60) {
            let file = &file[..length];
            to.hold("cut", &Parsing { file, ..whole })?;
        }
        for offset in (0..file.len() as u64 + 30).chain(u64::MAX - 60..=u64::MAX) {
            to.hold("elsewhere", &Parsing { offset, ..whole })?;
        }
        for size in 0..=u8::MAX {
            for sizes in [(size, sizes.1), (sizes.0, size), (size, size)] {
                to.hold("other sizes", &Parsing { sizes, ..whole })?;
            }
        }
        Ok(())
    })
}

/// Each byte of the header changed in every way, with the checksum as it was and with one that
/// fits.
pub fn damaged(to: &mut Comparison, random: &mut Random) -> Held {
    for_each(to, random, |to, sample, _| {
        let [header, _] = sample.parts();
        let summed = header.start..header.end - SUM;
        for place in header.clone() {
            for turn in 1..=0xff {
                let was = sample.file[header.clone()].to_vec();
                sample.file[place] ^= turn;
                to.hold("damaged", &header_of(sample))?;
                let sum = lookup3(&sample.file[summed.clone()]).to_le_bytes();
                sample.file[summed.end..header.end].copy_from_slice(&sum);
                to.hold("damaged and summed", &header_of(sample))?;
                sample.file[header.clone()].copy_from_slice(&was);
            }
        }
        Ok(())
    })
}

/// Short files of any bytes, most of them with a signature and a version at the front.
pub fn any_bytes(to: &mut Comparison, random: &mut Random) -> Held {
    for _ in 0..RANDOM {
        let length = random.up_to(50) as usize;
        let mut file = random.bytes(length);
        let front = &b"BTHD\0"[..length.min(random.up_to(9) as usize).min(5)];
        file[..front.len()].copy_from_slice(front);
        let any = random.up_to(10) as u8;
        let sizes = match random.up_to(5) {
            0 => (any, grid::field_size(random)),
            1 => (grid::field_size(random), any),
            _ => (grid::field_size(random), grid::field_size(random)),
        };
        let offset = match random.up_to(9) {
            0 => random.any_magnitude(u64::MAX),
            _ => 0,
        };
        let case = Parsing {
            file: &file,
            base: 0,
            offset,
            sizes,
        };
        to.hold("any bytes", &case)?;
    }
    Ok(())
}

/// Every base of the small files, and huge ones: the header at its offset, and where it stands.
pub fn at_every_base(to: &mut Comparison, random: &mut Random) -> Held {
    for_each(to, random, |to, sample, _| {
        let whole = header_of(sample);
        for base in block::every(sample.file.len()) {
            for offset in [whole.offset, whole.offset.wrapping_sub(base)] {
                let case = Parsing {
                    base,
                    offset,
                    ..whole
                };
                to.hold("every base", &case)?;
            }
        }
        Ok(())
    })
}

/// Headers behind blocks, at any geometry: as they were written, from other bases, by other sizes,
/// cut, and damaged.
pub fn behind_blocks(to: &mut Comparison, random: &mut Random) -> Held {
    for_some_behind_blocks(to, random, |to, sample, random| {
        to.hold_written("behind blocks", sample)?;
        let whole = header_of(sample);
        for base in block::some(sample.file.len(), random) {
            to.hold("other bases", &Parsing { base, ..whole })?;
        }
        let sizes = (random.up_to(9) as u8, random.up_to(9) as u8);
        to.hold("behind blocks", &Parsing { sizes, ..whole })?;
        let [header, _] = sample.parts();
        let file = &sample.file[..random.up_to(header.end as u64) as usize];
        to.hold("behind blocks, cut", &Parsing { file, ..whole })?;
        let place = header.start + random.up_to(header.len() as u64 - 1) as usize;
        sample.file[place] ^= 1 << random.up_to(7);
        to.hold("behind blocks, damaged", &header_of(sample))
    })
}
