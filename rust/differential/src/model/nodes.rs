//! The nodes of a tree: the tests before the root, the tests of each node, and what a node has.

use super::base;
use super::leaf;
use super::numbers::get;
use super::plan::check_offset_size;
use super::refusal::{self, require, Answer};
use super::table::{table, Geometry, Table};
use crate::inputs::Tree;

/// The nodes of a tree in a file, that is in its part from the header's base on.
pub struct Nodes<'a> {
    file: &'a [u8],
    geometry: Geometry,
    table: Table,
}

/// A node that has passed its tests.
pub struct TestedNode<'a> {
    /// The place of its first record.
    pub place: u64,
    /// Its records, end to end.
    pub records: &'a [u8],
    /// The address and the record count of each child; none in a leaf.
    pub children: Vec<(u64, u16)>,
}

impl Tree {
    /// Whether it is taken for one without records.
    pub fn is_empty(&self) -> bool {
        self.total_records == 0 || self.root_records == 0
    }
}

impl<'a> Nodes<'a> {
    /// The nodes, where the tests before the root pass; none where the tree is empty.
    pub fn of(file: &'a [u8], tree: &Tree) -> Answer<Option<Nodes<'a>>> {
        let file = base::part(file, tree.base)?;
        if tree.is_empty() {
            return Ok(None);
        }
        let geometry = tree.geometry;
        require(geometry.record_size != 0, refusal::record_size_zero())?;
        Ok(Some(Nodes {
            file,
            geometry,
            table: table(geometry, tree.depth)?,
        }))
    }

    /// The bytes of a record.
    pub fn record_size(&self) -> usize {
        self.geometry.record_size.into()
    }

    /// Reads the node of a level at an address, which has so many records.
    pub fn read(&self, level: u16, address: u64, count: u16) -> Answer<TestedNode<'a>> {
        match level {
            0 => self.leaf(address, count),
            _ => self.internal(level.into(), address, count.into()),
        }
    }

    fn leaf(&self, address: u64, count: u16) -> Answer<TestedNode<'a>> {
        Ok(TestedNode {
            records: leaf::records(self.file, address, count, self.geometry.record_size)?,
            place: address + 6,
            children: Vec::new(),
        })
    }

    /// An internal node. The figures of its later shortages are of the part from the node on.
    fn internal(&self, level: usize, address: u64, count: usize) -> Answer<TestedNode<'a>> {
        let part = leaf::begins(self.file, address, b"BTIN")?;
        let offset_size = self.geometry.offset_size;
        let pointer = self.table.pointer(self.geometry, level) as usize;
        let pointers = 6 + count * self.record_size();
        let end = pointers + (count + 1) * pointer;
        for end in [pointers, end] {
            require(
                end <= part.len(),
                refusal::file_ends_early(end as u128, part.len()),
            )?;
        }
        check_offset_size(offset_size)?;
        let child = |pointer: &[u8]| {
            let (address, rest) = pointer.split_at(offset_size.into());
            let records = get(&rest[..self.table.w as usize]) % 65_536;
            (get(address), records as u16)
        };
        Ok(TestedNode {
            place: address + 6,
            records: &part[6..pointers],
            children: part[pointers..end].chunks(pointer).map(child).collect(),
        })
    }
}
