//! The planner.

use std::collections::BTreeMap;

use super::refusal::{self, require, Answer};
use super::table::{Geometry, Table};

/// The most records of a plan.
pub const MOST_RECORDS: u64 = 16_777_215;

/// The figures of an accepted plan, and the table that it stands on.
#[derive(Debug, Clone, PartialEq, Eq)]
pub struct Plan {
    pub depth: u16,
    pub nodes: u64,
    pub leaves: u64,
    pub image_size: u64,
    pub table: Table,
}

/// The planning call: refusal 4, then the plan's own.
pub fn plan(record_count: u64, geometry: Geometry) -> Answer<Plan> {
    check_offset_size(geometry.offset_size)?;
    planned(record_count, geometry)
}

/// Whether a field of offsets or lengths can have so many bytes.
pub fn field_size(size: u8) -> bool {
    [2, 4, 8].contains(&size)
}

pub fn check_offset_size(size: u8) -> Answer<()> {
    require(field_size(size), refusal::offset_size(size))
}

/// The plan for a good offset size: refusals 7 to 11.
pub fn planned(record_count: u64, geometry: Geometry) -> Answer<Plan> {
    let node_size = geometry.node_size;
    require(
        (10..=65_536).contains(&node_size),
        refusal::node_size(node_size),
    )?;
    require(geometry.record_size != 0, refusal::record_size_zero())?;
    require(
        record_count <= MOST_RECORDS,
        refusal::too_many_records(record_count),
    )?;
    let table = needed_levels(record_count, geometry)?;
    let depth = table.m.len() as u16 - 1;
    let (nodes, leaves) = shape(record_count, &table)?;
    let image_size = nodes * u64::from(node_size);
    Ok(Plan {
        depth,
        nodes,
        leaves,
        image_size,
        table,
    })
}

/// The table up to the least level that holds the records; every level that it needs holds some.
fn needed_levels(record_count: u64, geometry: Geometry) -> Answer<Table> {
    let mut table = Table::leaf_only(geometry);
    if record_count == 0 {
        return Ok(table);
    }
    loop {
        let level = table.m.len() - 1;
        require(table.m[level] != 0, refusal::level_holds_none(level as u16))?;
        if table.c[level] >= record_count {
            return Ok(table);
        }
        table.grow(geometry);
    }
}

/// How many records a node of n records in all takes itself, if each subtree holds `capacity`.
pub fn taken(n: u64, capacity: u64) -> u64 {
    n.saturating_sub(capacity).div_ceil(capacity + 1).max(1)
}

/// The records of the subtrees: (how many, each) of the larger ones, which come first, and of the
/// others.
fn dealt(n: u64, capacity: u64) -> [(u64, u64); 2] {
    let taken = taken(n, capacity);
    let (rest, children) = (n - taken, taken + 1);
    let larger = rest % children;
    [
        (larger, rest / children + 1),
        (children - larger, rest / children),
    ]
}

/// The records of each subtree in order.
pub fn children(n: u64, capacity: u64) -> impl Iterator<Item = u64> {
    dealt(n, capacity)
        .into_iter()
        .flat_map(|(many, each)| (0..many).map(move |_| each))
}

/// Nodes and leaves, level by level from the root, where no subtree is too thin. Subtrees with the
/// same number of records are alike, so each level is a map from records to subtrees.
fn shape(record_count: u64, table: &Table) -> Answer<(u64, u64)> {
    if record_count == 0 {
        return Ok((1, 1));
    }
    let mut level = BTreeMap::from([(record_count, 1)]);
    let mut above = 0;
    for depth in (1..table.c.len()).rev() {
        check_thickness(&level, depth)?;
        above += level.values().sum::<u64>();
        let mut below = BTreeMap::new();
        for (&n, &subtrees) in &level {
            for (many, each) in dealt(n, table.c[depth - 1]) {
                if many != 0 {
                    *below.entry(each).or_default() += subtrees * many;
                }
            }
        }
        level = below;
    }
    check_thickness(&level, 0)?;
    let leaves = level.values().sum::<u64>();
    Ok((above + leaves, leaves))
}

fn check_thickness(level: &BTreeMap<u64, u64>, depth: usize) -> Answer<()> {
    let least = (1 << (depth + 1)) - 1;
    let thick = level.keys().all(|&n| n >= least);
    require(thick, refusal::subtree_too_thin())
}

/// A node of a plan.
#[derive(Debug, Clone, Copy, PartialEq, Eq)]
pub struct Node {
    pub level: u16,
    pub records: u64,
}

impl Plan {
    /// The figures of an answer: depth, nodes, leaves, size of the image.
    pub fn figures(&self) -> [u64; 4] {
        [self.depth.into(), self.nodes, self.leaves, self.image_size]
    }

    /// Every node of the plan of so many records, children first and the root last.
    pub fn nodes(&self, record_count: u64) -> Vec<Node> {
        let mut nodes = Vec::new();
        walk(record_count, self.depth, &self.table.c, &mut nodes);
        nodes
    }

    /// The address of the last node.
    pub fn root_address(&self, start: u64, geometry: Geometry) -> u64 {
        start + (self.nodes - 1) * u64::from(geometry.node_size)
    }

    /// The records of the last node.
    pub fn root_records(&self, record_count: u64) -> u64 {
        match self.depth {
            0 => record_count,
            depth => taken(record_count, self.table.c[usize::from(depth) - 1]),
        }
    }
}

/// Adds the nodes of a subtree of n records.
fn walk(n: u64, level: u16, capacities: &[u64], nodes: &mut Vec<Node>) {
    let mut records = n;
    if level > 0 {
        let capacity = capacities[usize::from(level) - 1];
        for child in children(n, capacity) {
            walk(child, level - 1, capacities, nodes);
        }
        records = taken(n, capacity);
    }
    nodes.push(Node { level, records });
}
