//! Nodes made by hand, as the readers take them.

use crate::model::{lookup3, Geometry, Table};

/// What a pointer says of a child; each number is cut to its field.
#[derive(Clone, Copy)]
pub struct Pointer {
    pub address: u64,
    pub records: u64,
    pub total: u64,
}

/// The form of a tree's nodes.
pub struct Form {
    pub geometry: Geometry,
    table: Table,
}

impl Form {
    pub fn new(geometry: Geometry, depth: u16) -> Form {
        Form {
            geometry,
            table: Table::up_to(geometry, depth),
        }
    }

    /// The bytes of a node with its checksum, but without zeros to the node size.
    pub fn length(&self, level: u16, records: usize) -> usize {
        let pointers = match level {
            0 => 0,
            _ => (records + 1) * self.table.pointer(self.geometry, level.into()) as usize,
        };
        10 + records * usize::from(self.geometry.record_size) + pointers
    }

    pub fn leaf(&self, records: &[u8]) -> Vec<u8> {
        summed(&[b"BTLF\0\x05", records].concat())
    }

    /// A node of a level from 1 on.
    pub fn internal(&self, level: u16, records: &[u8], pointers: &[Pointer]) -> Vec<u8> {
        let mut bytes = [b"BTIN\0\x05", records].concat();
        let widths = [
            self.geometry.offset_size.into(),
            self.table.w,
            self.table.t[usize::from(level) - 1],
        ];
        for pointer in pointers {
            let numbers = [pointer.address, pointer.records, pointer.total];
            for (number, width) in numbers.into_iter().zip(widths) {
                bytes.extend(&number.to_le_bytes()[..width as usize]);
            }
        }
        summed(&bytes)
    }
}

/// The bytes and their checksum.
fn summed(bytes: &[u8]) -> Vec<u8> {
    [bytes, &lookup3(bytes).to_le_bytes()].concat()
}
