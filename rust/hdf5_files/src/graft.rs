//! Our header and nodes in the place of the library's, whole or damaged.

use nuldrafon::{Geometry, WriteRequest};

use crate::bytes::{same, Fault};
use crate::superblock::{set_end, Sizes};
use crate::tree::Tree;

/// What the library's own nodes are overwritten with.
const WIPED: u8 = 0x5a;

/// Stands for the least node size that can be planned.
const LEAST: u32 = 0;

/// Stands for the node size of one leaf that the records fill.
const FILLED: u32 = 1;

/// Node sizes that are tried, up to the largest.
const NODE_SIZES: [u32; 7] = [LEAST, FILLED, 100, 300, 512, 2_048, 65_536];

/// Those for trees of more records than `MANY`. In nodes of 4,096 bytes 100,000 links make a tree of
/// depth 2 whose counts have two bytes by the leaf's capacity, and one by that of an internal node.
const FOR_MANY: [u32; 4] = [LEAST, 512, 4_096, 65_536];
const MANY: u64 = 1_000;

/// The node sizes for a tree of so many records.
pub fn node_sizes(records: u64) -> &'static [u32] {
    if records > MANY {
        &FOR_MANY
    } else {
        &NODE_SIZES
    }
}

/// A tree as the writing call made it.
pub struct Written {
    pub node_size: u32,
    pub tree: nuldrafon::Written,
}

/// A fault in one of a file's trees.
#[derive(Clone, Copy, Debug)]
pub enum Damage {
    /// A byte of the middle record is another.
    Changed,
    /// The middle record is missing.
    Dropped,
    /// The middle record stands where the next one should, and the next one before it.
    Swapped,
    /// A byte of the first leaf is another, and its checksum is not.
    LeafUnsummed,
    /// The same of the root.
    RootUnsummed,
}

pub const DAMAGES: [Damage; 5] = [
    Damage::Changed,
    Damage::Dropped,
    Damage::Swapped,
    Damage::LeafUnsummed,
    Damage::RootUnsummed,
];

/// The file with our trees, in nodes of this size, at its end, and the library's nodes wiped.
pub fn graft(
    file: &[u8],
    sizes: Sizes,
    trees: &[Tree],
    node_size: u32,
) -> Result<(Vec<u8>, Vec<Written>), Fault> {
    let (block, hdf5) = file.split_at(sizes.block);
    let mut grafted = hdf5.to_vec();
    let mut all = Vec::new();
    for tree in trees {
        let node_size = match node_size {
            LEAST => least(tree, sizes),
            FILLED => 10 + tree.records.len() as u32,
            _ => node_size,
        };
        let written = write(tree, &tree.records, node_size, sizes, grafted.len() as u64)?;
        put(&mut grafted, tree, &written);
        all.push(written);
    }
    set_end(&mut grafted, sizes);
    Ok(([block, &grafted].concat(), all))
}

/// The file with one of its trees ours, and damaged.
pub fn damaged(
    file: &[u8],
    sizes: Sizes,
    tree: &Tree,
    damage: Damage,
    node_size: u32,
) -> Result<Vec<u8>, Fault> {
    let (block, hdf5) = file.split_at(sizes.block);
    let mut grafted = hdf5.to_vec();
    let size = tree.record_size();
    let middle = tree.rows().count() / 2 * size;
    let mut records = tree.records.clone();
    match damage {
        Damage::Changed => records[middle + told_by(tree.header.tree_type)] ^= 1,
        Damage::Dropped => drop(records.drain(middle..middle + size)),
        Damage::Swapped => records[middle - size..middle + size].rotate_left(size),
        Damage::LeafUnsummed | Damage::RootUnsummed => {}
    }
    let mut written = write(tree, &records, node_size, sizes, grafted.len() as u64)?;
    let root = written.tree.image.len() - node_size as usize;
    match damage {
        Damage::LeafUnsummed => written.tree.image[6] ^= 1,
        Damage::RootUnsummed => written.tree.image[root + 6] ^= 1,
        _ => {}
    }
    put(&mut grafted, tree, &written);
    set_end(&mut grafted, sizes);
    Ok([block, &grafted].concat())
}

/// A byte of a record whose change the library must notice: of a hash, a heap id or an address.
fn told_by(kind: u8) -> usize {
    match kind {
        5 | 10 | 11 => 0,
        6 => 9,
        8 => 13,
        _ => 1,
    }
}

/// Whether our header and leaf are the library's, byte for byte; none where there is not one node.
pub fn equal_leaf(file: &[u8], sizes: Sizes, tree: &Tree) -> Result<Option<bool>, Fault> {
    let (header, root) = (&tree.header, tree.header.root_address);
    if header.depth > 0 || header.total_records == 0 {
        return Ok(None);
    }
    let ours = write(tree, &tree.records, header.geometry.node_size, sizes, root)?.tree;
    let hdf5 = &file[sizes.block..];
    Ok(Some(
        hdf5[tree.at..].starts_with(&ours.header) && hdf5[root as usize..].starts_with(&ours.image),
    ))
}

/// The least node size at which the tree's records can be planned.
fn least(tree: &Tree, sizes: Sizes) -> u32 {
    let header = &tree.header;
    let accepts = |size: &u32| {
        let geometry = Geometry::new(*size, header.geometry.record_size, sizes.offset);
        geometry.plan(header.total_records).is_ok()
    };
    (10..=65_536).find(accepts).unwrap_or(65_536)
}

/// Writes records into a tree of the same type, its nodes from `start` on.
fn write(
    tree: &Tree,
    records: &[u8],
    node_size: u32,
    sizes: Sizes,
    start: u64,
) -> Result<Written, Fault> {
    let geometry = Geometry::new(node_size, tree.header.geometry.record_size, sizes.offset);
    let tree_type = tree.header.tree_type;
    let request = WriteRequest::new(tree_type, geometry, sizes.length, start, records);
    let written = request.write_to_vec();
    let tree = written.map_err(|refusal| format!("writing: {refusal}"))?;
    let planned = geometry.plan(request.record_count);
    same("plan of the write", Ok(tree.plan), planned)?;
    Ok(Written { node_size, tree })
}

/// Wipes the library's nodes, writes our header over the library's, and our nodes at the end, all in
/// the HDF5 part.
fn put(hdf5: &mut Vec<u8>, tree: &Tree, written: &Written) {
    for at in &tree.nodes {
        hdf5[*at..*at + tree.header.geometry.node_size as usize].fill(WIPED);
    }
    let at = tree.at;
    hdf5[at..at + written.tree.header.len()].copy_from_slice(&written.tree.header);
    hdf5.extend_from_slice(&written.tree.image);
}
