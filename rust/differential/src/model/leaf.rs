//! A look at one leaf: its checks, the record at an index; and how any node begins.

use super::base;
use super::lookup3::lookup3;
use super::numbers::get;
use super::refusal::{self, require, Answer};
use crate::inputs::Leaf;

/// Copies a record to the front of the output; returns its length.
pub fn leaf_record(file: &[u8], leaf: &Leaf, index: u64, output: &mut [u8]) -> Answer<u64> {
    let part = base::part(file, leaf.base)?;
    let size = leaf.record_size;
    require(size != 0, refusal::record_size_zero())?;
    let records = records(part, leaf.address, leaf.count, size)?;
    let record = match index < leaf.count.into() {
        true => &records[index as usize * usize::from(size)..][..size.into()],
        false => &[],
    };
    let length = output.len();
    require(record.len() <= length, refusal::output_too_short(length))?;
    output[..record.len()].copy_from_slice(record);
    Ok(record.len() as u64)
}

/// The records of a leaf, end to end, once its checks have passed: the file reaches to their end,
/// then to the end of the 4 checksum bytes, then the checksum agrees.
pub fn records(file: &[u8], address: u64, count: u16, record_size: u16) -> Answer<&[u8]> {
    let part = begins(file, address, b"BTLF")?;
    let end = 6 + usize::from(count) * usize::from(record_size);
    let end_in_file = u128::from(address) + end as u128;
    require(
        end <= part.len(),
        refusal::file_ends_early(end_in_file, file.len()),
    )?;
    require(
        end + 4 <= part.len(),
        refusal::file_ends_within_leaf_checksum(end_in_file + 4, file.len()),
    )?;
    let stored = get(&part[end..end + 4]) as u32;
    let computed = lookup3(&part[..end]);
    require(
        stored == computed,
        refusal::checksum_differs(stored, computed),
    )?;
    Ok(&part[6..end])
}

/// The part of the file from a node on, whose first 6 bytes are there.
pub fn begins<'a>(file: &'a [u8], address: u64, signature: &[u8]) -> Answer<&'a [u8]> {
    let end = u128::from(address) + 6;
    require(
        end <= file.len() as u128,
        refusal::file_ends_early(end, file.len()),
    )?;
    let part = &file[address as usize..];
    require(part.starts_with(signature), refusal::wrong_signature())?;
    Ok(part)
}
