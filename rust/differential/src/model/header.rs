//! The header reader.

use super::base;
use super::lookup3::lookup3;
use super::numbers::get;
use super::plan::{check_offset_size, field_size};
use super::refusal::{self, require, Answer};
use super::table::Geometry;
use crate::inputs::Tree;

/// The bytes of a file from an offset on that were found there.
struct Part<'a> {
    file: &'a [u8],
    offset: u64,
    /// How many bytes were found.
    found: usize,
}

impl<'a> Part<'a> {
    /// Finds bytes up to `end`, counted from the offset, and gives all.
    fn up_to(&mut self, end: usize) -> Answer<&'a [u8]> {
        let end_in_file = u128::from(self.offset) + end as u128;
        require(
            end_in_file <= self.file.len() as u128,
            refusal::file_ends_early(end_in_file, self.file.len()),
        )?;
        self.found = end;
        let offset = self.offset as usize;
        Ok(&self.file[offset..offset + end])
    }

    /// The number in the next bytes.
    fn next(&mut self, width: usize) -> Answer<u64> {
        let at = self.found;
        let bytes = self.up_to(at + width)?;
        Ok(get(&bytes[at..]))
    }
}

/// The header at an offset of the part of a file from a base on.
pub fn parse(
    file: &[u8],
    base: u64,
    offset: u64,
    offset_size: u8,
    length_size: u8,
) -> Answer<Tree> {
    let mut part = Part {
        file: base::part(file, base)?,
        offset,
        found: 0,
    };
    require(part.up_to(4)? == b"BTHD", refusal::wrong_signature())?;
    let fixed = part.up_to(16)?;
    require(fixed[4] == 0, refusal::header_version(fixed[4]))?;
    check_offset_size(offset_size)?;
    let root_address = part.next(offset_size.into())?;
    let root_records = part.next(2)? as u16;
    require(field_size(length_size), refusal::length_size(length_size))?;
    let total_records = part.next(length_size.into())?;
    let summed = part.up_to(part.found)?;
    let stored = part.next(4)? as u32;
    let computed = lookup3(summed);
    require(
        stored == computed,
        refusal::checksum_differs(stored, computed),
    )?;
    Ok(Tree {
        tree_type: fixed[5],
        geometry: Geometry {
            node_size: get(&fixed[6..10]) as u32,
            record_size: get(&fixed[10..12]) as u16,
            offset_size,
        },
        depth: get(&fixed[12..14]) as u16,
        root_address,
        root_records,
        total_records,
        base,
    })
}
