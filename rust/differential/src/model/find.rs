//! Finding a record by its key, and the list of all records with their places.

use super::nodes::Nodes;
use super::numbers::get;
use super::refusal::{self, require, Answer};
use crate::inputs::{Field, Tree};

/// The end of a find: the place of a record, or none, and the nodes read.
#[derive(Debug, Clone, Copy, PartialEq, Eq)]
pub struct Found {
    pub answer: Answer<Option<u64>>,
    pub nodes: u64,
}

pub fn find(file: &[u8], tree: &Tree, key: Field, sought: u64) -> Found {
    let mut nodes = 0;
    let answer = descend(file, tree, key, sought, &mut nodes);
    Found { answer, nodes }
}

/// Goes down from the root, and keeps the last bounding record that has the key.
fn descend(
    file: &[u8],
    tree: &Tree,
    key: Field,
    sought: u64,
    read: &mut u64,
) -> Answer<Option<u64>> {
    let Some(nodes) = Nodes::of(file, tree)? else {
        return Ok(None);
    };
    let size = nodes.record_size();
    require(fits(key, size), refusal::key_field())?;
    let mut answer = None;
    let (mut address, mut count) = (tree.root_address, tree.root_records);
    for level in (0..=tree.depth).rev() {
        let node = nodes.read(level, address, count)?;
        *read += 1;
        let mut records = node.records.chunks(size);
        let bound = records.position(|record| key_of(record, key) >= sought);
        if let Some(i) = bound {
            if key_of(&node.records[i * size..], key) == sought {
                answer = Some(node.place + (i * size) as u64);
            }
        }
        if level > 0 {
            (address, count) = node.children[bound.unwrap_or(count.into())];
        }
    }
    Ok(answer)
}

/// Whether a key has 1 to 8 bytes, all of them in a record of this size.
pub fn fits(key: Field, record_size: usize) -> bool {
    let end = u128::from(key.start) + u128::from(key.width);
    (1..=8).contains(&key.width) && end <= record_size as u128
}

/// The key of a record.
pub fn key_of(record: &[u8], key: Field) -> u64 {
    get(&record[key.start as usize..][..key.width as usize])
}

/// All records in the order of collecting, each with its place, up to a refusal. Collecting's are
/// given, and 15 where there are more records than `most`.
pub struct Listed<'a> {
    pub answer: Answer<()>,
    pub records: Vec<(u64, &'a [u8])>,
}

pub fn list<'a>(file: &'a [u8], tree: &Tree, most: usize) -> Listed<'a> {
    let mut records = Vec::new();
    let answer = Nodes::of(file, tree).and_then(|nodes| match nodes {
        None => Ok(()),
        Some(nodes) => {
            let root = (tree.root_address, tree.root_records);
            add(&nodes, tree.depth, root, most, &mut records)
        }
    });
    Listed { answer, records }
}

/// Adds the records of a subtree.
fn add<'a>(
    nodes: &Nodes<'a>,
    level: u16,
    (address, count): (u64, u16),
    most: usize,
    records: &mut Vec<(u64, &'a [u8])>,
) -> Answer<()> {
    let node = nodes.read(level, address, count)?;
    let size = nodes.record_size();
    let places = (node.place..).step_by(size);
    let mut own = places.zip(node.records.chunks(size));
    // Each child but the last has a record behind it; a leaf has records alone.
    let mut children = node.children.into_iter();
    loop {
        if let Some(child) = children.next() {
            add(nodes, level - 1, child, most, records)?;
        }
        let Some(record) = own.next() else {
            return Ok(());
        };
        require(records.len() < most, refusal::output_too_short(most))?;
        records.push(record);
    }
}
