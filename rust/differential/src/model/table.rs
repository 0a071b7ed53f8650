//! The capacity table.

use std::fmt;

use super::numbers::{held, width};
use super::refusal::{require, too_deep, Answer};

/// The deepest tree that has a table.
pub const LEVEL_LIMIT: u16 = 32;

/// The bytes of a node beside records and pointers.
const OVERHEAD: u32 = 10;

/// The sizes in bytes that fix the form of a tree.
#[derive(Debug, Clone, Copy, PartialEq, Eq)]
pub struct Geometry {
    pub node_size: u32,
    pub record_size: u16,
    pub offset_size: u8,
}

impl Geometry {
    pub const fn new(node_size: u32, record_size: u16, offset_size: u8) -> Geometry {
        Geometry {
            node_size,
            record_size,
            offset_size,
        }
    }
}

impl fmt::Display for Geometry {
    fn fmt(&self, to: &mut fmt::Formatter) -> fmt::Result {
        let Geometry {
            node_size,
            record_size,
            offset_size,
        } = self;
        write!(to, "{node_size}/{record_size}/{offset_size}")
    }
}

/// W, and M, C and T of each level.
#[derive(Debug, Clone, PartialEq, Eq)]
pub struct Table {
    pub w: u64,
    pub m: Vec<u64>,
    pub c: Vec<u64>,
    pub t: Vec<u64>,
}

impl Table {
    pub fn leaf_only(geometry: Geometry) -> Table {
        let space = geometry.node_size.saturating_sub(OVERHEAD);
        let l = match geometry.record_size {
            0 => 0,
            size => u64::from(space) / u64::from(size),
        };
        Table {
            w: width(l),
            m: vec![l],
            c: vec![l],
            t: vec![0],
        }
    }

    /// Adds the next level.
    pub fn grow(&mut self, geometry: Geometry) {
        let below = self.c[self.c.len() - 1];
        let pointer = self.pointer(geometry, self.m.len());
        let space = u64::from(geometry.node_size).saturating_sub(u64::from(OVERHEAD) + pointer);
        let m = space / (u64::from(geometry.record_size) + pointer);
        let c = held((u128::from(m) + 1) * u128::from(below) + u128::from(m));
        self.m.push(m);
        self.c.push(c);
        self.t.push(width(c));
    }

    pub fn up_to(geometry: Geometry, depth: u16) -> Table {
        let mut table = Table::leaf_only(geometry);
        for _ in 0..depth {
            table.grow(geometry);
        }
        table
    }

    /// P: the bytes of a child's pointer in a node of a level from 1 on.
    pub fn pointer(&self, geometry: Geometry, level: usize) -> u64 {
        u64::from(geometry.offset_size) + self.w + self.t[level - 1]
    }
}

/// The table call.
pub fn table(geometry: Geometry, depth: u16) -> Answer<Table> {
    require(depth <= LEVEL_LIMIT, too_deep(depth))?;
    Ok(Table::up_to(geometry, depth))
}
