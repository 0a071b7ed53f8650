//! What is given to the calls, beside lent buffers.

use crate::model::Geometry;

/// What is given to a write.
#[derive(Debug, Clone, Copy)]
pub struct Writing<'a> {
    pub tree_type: u8,
    pub record_count: u64,
    pub geometry: Geometry,
    pub length_size: u8,
    pub start: u64,
    pub records: &'a [u8],
}

/// What is given to a collecting or a find, beside the file: a header's figures and the offset
/// size.
#[derive(Debug, Clone, Copy, PartialEq, Eq)]
pub struct Tree {
    pub tree_type: u8,
    pub geometry: Geometry,
    pub depth: u16,
    pub root_address: u64,
    pub root_records: u16,
    pub total_records: u64,
    pub base: u64,
}

impl Tree {
    /// What figures come to: each counts modulo the numbers of its field.
    pub fn of_figures(figures: [u64; 8], offset_size: u8) -> Tree {
        let [tree_type, node_size, record_size, depth, root_address, root_records, total, base] =
            figures;
        Tree {
            tree_type: (tree_type % (1 << 8)) as u8,
            geometry: Geometry {
                node_size: (node_size % (1 << 32)) as u32,
                record_size: (record_size % (1 << 16)) as u16,
                offset_size,
            },
            depth: (depth % (1 << 16)) as u16,
            root_address,
            root_records: (root_records % (1 << 16)) as u16,
            total_records: total,
            base,
        }
    }

    /// The figures that the header reader answers, the base behind the others.
    pub fn figures(&self) -> [u64; 8] {
        [
            self.tree_type.into(),
            self.geometry.node_size.into(),
            self.geometry.record_size.into(),
            self.depth.into(),
            self.root_address,
            self.root_records.into(),
            self.total_records,
            self.base,
        ]
    }
}

/// A number inside a record: the place of its first byte, and how many it has.
#[derive(Debug, Clone, Copy, PartialEq, Eq)]
pub struct Field {
    pub start: u64,
    pub width: u64,
}

impl Field {
    pub const fn new(start: u64, width: u64) -> Field {
        Field { start, width }
    }
}

/// What is given to a look at a leaf, beside the file and the record's index.
#[derive(Debug, Clone, Copy, PartialEq, Eq)]
pub struct Leaf {
    pub base: u64,
    pub address: u64,
    pub count: u16,
    pub record_size: u16,
}

/// The values of a record by their meaning; one that the record's type lacks is 0.
#[derive(Debug, Clone, Copy, PartialEq, Eq, Default)]
pub struct RecordValues {
    pub name_hash: u64,
    pub heap_id: u64,
    pub message_flags: u64,
    pub creation_order: u64,
}

impl RecordValues {
    /// The values in the order of a read's answer.
    pub fn of_figures(figures: [u64; 4]) -> RecordValues {
        let [name_hash, heap_id, message_flags, creation_order] = figures;
        RecordValues {
            name_hash,
            heap_id,
            message_flags,
            creation_order,
        }
    }

    /// The same back.
    pub fn figures(&self) -> [u64; 4] {
        [
            self.name_hash,
            self.heap_id,
            self.message_flags,
            self.creation_order,
        ]
    }
}
