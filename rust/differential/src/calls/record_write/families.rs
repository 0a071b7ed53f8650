//! Records written by their meaning: the families of cases.

use super::RecordDraft;
use crate::compare::records::{limits, RecordType, TYPES};
use crate::compare::{Comparison, Held};
use crate::inputs::RecordValues;
use crate::random::Random;

/// Outputs up to this long: those of all records, and longer.
const OUTPUTS: usize = 20;
const RANDOM: usize = 150_000;

impl Comparison {
    /// Writes values as a record of a type into outputs of some lengths.
    fn hold_record_writes(
        &mut self,
        class: &'static str,
        tree_type: u8,
        figures: [u64; 4],
        outputs: impl IntoIterator<Item = usize>,
    ) -> Held {
        outputs.into_iter().try_for_each(|output_length| {
            let draft = RecordDraft {
                tree_type,
                values: RecordValues::of_figures(figures),
                output_length,
            };
            self.hold(class, &draft)
        })
    }
}

/// Each field of each type at the limits of every width, the others at 0, at 1 or at their largest,
/// and outputs of every length.
pub fn at_the_limits_of_fields(to: &mut Comparison, _: &mut Random) -> Held {
    for known in &TYPES {
        let largest = known.largest();
        for others in [[0; 4], largest.map(|most| most.min(1)), largest] {
            for field in 0..4 {
                for value in limits() {
                    let mut figures = others;
                    figures[field] = value;
                    to.hold_record_writes("limits", known.number, figures, 0..=OUTPUTS)?;
                }
            }
        }
    }
    Ok(())
}

/// Every choice of values from 0, 1, the largest of the field, one above it and the largest of all,
/// and outputs of every length.
pub fn with_values_combined(to: &mut Comparison, _: &mut Random) -> Held {
    for known in &TYPES {
        let choices = known
            .largest()
            .map(|most| [0, 1, most, most.wrapping_add(1), u64::MAX]);
        for choice in 0..5_usize.pow(4) {
            let digit = |field: u32| choice / 5_usize.pow(field) % 5;
            let figures = [0, 1, 2, 3].map(|field| choices[field][digit(field as u32)]);
            to.hold_record_writes("combined", known.number, figures, 0..=OUTPUTS)?;
        }
    }
    Ok(())
}

/// Every type, with one number in every choice of the fields and 0 in the others, and outputs from
/// an empty one to one that every record fits.
pub fn with_several_causes(to: &mut Comparison, _: &mut Random) -> Held {
    for tree_type in 0..=u8::MAX {
        for large in [1, 256, 1 << 32, 1 << 56, u64::MAX] {
            for choice in 0..16 {
                let figures = [0, 1, 2, 3].map(|field| large * (choice >> field & 1));
                let outputs = [0, 1, 10, 11, 13, 15, 17, OUTPUTS];
                to.hold_record_writes("several causes", tree_type, figures, outputs)?;
            }
        }
    }
    Ok(())
}

/// Outputs whose lengths, cut to 8, 16 or 24 bits, are near that of the type's records.
pub fn into_long_outputs(to: &mut Comparison, random: &mut Random) -> Held {
    for known in &TYPES {
        let figures = known.largest().map(|most| random.up_to(most));
        for more in [1 << 8, 1 << 9, 1 << 16] {
            let outputs = (more..=more + OUTPUTS).chain([more - 1]);
            to.hold_record_writes("long outputs", known.number, figures, outputs)?;
        }
        to.hold_record_writes("long outputs", known.number, figures, [1 << 24])?;
    }
    Ok(())
}

/// Any values, most of which fit, mostly of a known type and into an output that is long enough.
pub fn of_any_values(to: &mut Comparison, random: &mut Random) -> Held {
    for _ in 0..RANDOM {
        let known = RecordType::any(random);
        let tree_type = match random.up_to(19) {
            0 => random.up_to(255) as u8,
            _ => known.number,
        };
        let output = match random.up_to(3) {
            0 => random.up_to(OUTPUTS as u64) as usize,
            _ => known.length() + random.any_magnitude(40) as usize,
        };
        let figures = known.any_values(random).figures();
        to.hold_record_writes("any values", tree_type, figures, [output])?;
    }
    Ok(())
}
