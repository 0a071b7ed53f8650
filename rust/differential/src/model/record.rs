//! Records of the types 5, 6, 8 and 9 by their meaning: the places of each type, written out.

use super::numbers::get;
use super::refusal::{self, require, Answer};
use crate::inputs::RecordValues;

/// The values of a record; 0 for one that the type lacks.
pub fn record_read(tree_type: u8, record: &[u8]) -> Answer<RecordValues> {
    let mut values = RecordValues::default();
    match (tree_type, record.len()) {
        (5, 11) => {
            values.name_hash = get(&record[0..4]);
            values.heap_id = get(&record[4..11]);
        }
        (6, 15) => {
            values.creation_order = get(&record[0..8]);
            values.heap_id = get(&record[8..15]);
        }
        (8, 17) => {
            values.heap_id = get(&record[0..8]);
            values.message_flags = get(&record[8..9]);
            values.creation_order = get(&record[9..13]);
            values.name_hash = get(&record[13..17]);
        }
        (9, 13) => {
            values.heap_id = get(&record[0..8]);
            values.message_flags = get(&record[8..9]);
            values.creation_order = get(&record[9..13]);
        }
        (5 | 6 | 8 | 9, _) => return Err(refusal::record_type_mismatch()),
        _ => return Err(refusal::unknown_record_type()),
    }
    Ok(values)
}

/// Writes a record to the front of the output; returns its length.
pub fn record_write(tree_type: u8, values: &RecordValues, output: &mut [u8]) -> Answer<u64> {
    let record = match tree_type {
        5 => type_5(values)?,
        6 => type_6(values)?,
        8 => type_8(values)?,
        9 => type_9(values)?,
        _ => return Err(refusal::unknown_record_type()),
    };
    let length = output.len();
    require(record.len() <= length, refusal::output_too_short(length))?;
    output[..record.len()].copy_from_slice(&record);
    Ok(record.len() as u64)
}

fn type_5(values: &RecordValues) -> Answer<Vec<u8>> {
    fits(values.name_hash < 1 << 32)?;
    fits(values.heap_id < 1 << 56)?;
    fits(values.message_flags == 0)?;
    fits(values.creation_order == 0)?;
    let mut record = vec![0; 11];
    record[0..4].copy_from_slice(&values.name_hash.to_le_bytes()[0..4]);
    record[4..11].copy_from_slice(&values.heap_id.to_le_bytes()[0..7]);
    Ok(record)
}

fn type_6(values: &RecordValues) -> Answer<Vec<u8>> {
    fits(values.name_hash == 0)?;
    fits(values.heap_id < 1 << 56)?;
    fits(values.message_flags == 0)?;
    let mut record = vec![0; 15];
    record[0..8].copy_from_slice(&values.creation_order.to_le_bytes());
    record[8..15].copy_from_slice(&values.heap_id.to_le_bytes()[0..7]);
    Ok(record)
}

fn type_8(values: &RecordValues) -> Answer<Vec<u8>> {
    fits(values.name_hash < 1 << 32)?;
    fits(values.message_flags < 1 << 8)?;
    fits(values.creation_order < 1 << 32)?;
    let mut record = vec![0; 17];
    record[0..8].copy_from_slice(&values.heap_id.to_le_bytes());
    record[8] = values.message_flags as u8;
    record[9..13].copy_from_slice(&values.creation_order.to_le_bytes()[0..4]);
    record[13..17].copy_from_slice(&values.name_hash.to_le_bytes()[0..4]);
    Ok(record)
}

fn type_9(values: &RecordValues) -> Answer<Vec<u8>> {
    fits(values.name_hash == 0)?;
    fits(values.message_flags < 1 << 8)?;
    fits(values.creation_order < 1 << 32)?;
    let mut record = vec![0; 13];
    record[0..8].copy_from_slice(&values.heap_id.to_le_bytes());
    record[8] = values.message_flags as u8;
    record[9..13].copy_from_slice(&values.creation_order.to_le_bytes()[0..4]);
    Ok(record)
}

/// Goes on where a value fits its field.
fn fits(holds: bool) -> Answer<()> {
    require(holds, refusal::record_type_mismatch())
}
