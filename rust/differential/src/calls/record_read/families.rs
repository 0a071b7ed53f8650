//! Records read by their meaning: the families of cases.

use super::RecordReading;
use crate::compare::bytes::repeated;
use crate::compare::records::{RecordType, TYPES};
use crate::compare::{Comparison, Held};
use crate::random::Random;

/// Lengths up to this one are tried with every type.
const LENGTHS: usize = 40;
const RANDOM: usize = 150_000;

/// Every type with every length: zeros, ones and any bytes.
pub fn of_every_type_and_length(to: &mut Comparison, random: &mut Random) -> Held {
    for tree_type in 0..=u8::MAX {
        for length in 0..=LENGTHS {
            for record in [vec![0; length], vec![0xff; length], random.bytes(length)] {
                let record = &record;
                to.hold(
                    "every type and length",
                    &RecordReading { tree_type, record },
                )?;
            }
        }
    }
    Ok(())
}

/// Each byte of a record at every number, the others all 0 or all 255.
pub fn of_every_byte(to: &mut Comparison, _: &mut Random) -> Held {
    for known in &TYPES {
        for others in [0, 0xff] {
            let mut record = vec![others; known.length()];
            for place in 0..record.len() {
                for byte in 0..=u8::MAX {
                    record[place] = byte;
                    let reading = RecordReading {
                        tree_type: known.number,
                        record: &record,
                    };
                    to.hold("every byte", &reading)?;
                }
                record[place] = others;
            }
        }
    }
    Ok(())
}

/// Records whose lengths, cut to 8, 16 or 24 bits, are near that of the type.
pub fn of_long_records(to: &mut Comparison, random: &mut Random) -> Held {
    let bytes = repeated(random, (1 << 24) + LENGTHS);
    for known in &TYPES {
        for more in [1 << 8, 1 << 9, 1 << 16, 1 << 24] {
            for length in more + known.length() - 1..=more + known.length() + 1 {
                let reading = RecordReading {
                    tree_type: known.number,
                    record: &bytes[..length],
                };
                to.hold("long", &reading)?;
            }
        }
    }
    Ok(())
}

/// Any bytes, mostly of a known type and of its length.
pub fn of_any_bytes(to: &mut Comparison, random: &mut Random) -> Held {
    for _ in 0..RANDOM {
        let known = RecordType::any(random);
        let length = match random.up_to(9) {
            0 => random.up_to(LENGTHS as u64) as usize,
            _ => known.length(),
        };
        let tree_type = match random.up_to(19) {
            0 => random.up_to(255) as u8,
            _ => known.number,
        };
        let record = &random.bytes(length);
        to.hold("any bytes", &RecordReading { tree_type, record })?;
    }
    Ok(())
}
