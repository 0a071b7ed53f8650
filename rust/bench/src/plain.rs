//! A plain collector into one lent buffer, which copies whole leaves, and a plain find, to measure by.

use std::ops::Range;

use differential::inputs::Tree;
use differential::model::{Geometry, LEVEL_LIMIT};
use nuldrafon::Field;

/// Puts the records into the output and tells how many bytes that is; none if the file is not good
/// or the output too short.
pub fn collect(file: &[u8], tree: &Tree, output: &mut [u8]) -> Option<usize> {
    let mut put = 0;
    let walk = Walk::new(file, tree);
    walk.node(
        tree.depth,
        tree.root_address,
        tree.root_records,
        &mut |part| {
            let end = put + part.len();
            output.get_mut(put..end)?.copy_from_slice(&file[part]);
            put = end;
            Some(())
        },
    )?;
    Some(put)
}

/// The places that the checksums of a good tree's leaves are of.
pub fn leaves(file: &[u8], tree: &Tree) -> Vec<Range<usize>> {
    let mut found = Vec::new();
    let walk = Walk::new(file, tree);
    let ended = walk.node(
        tree.depth,
        tree.root_address,
        tree.root_records,
        &mut |part| {
            let node = part.start - 6..part.end;
            if file[node.clone()].starts_with(b"BTLF") {
                found.push(node);
            }
            Some(())
        },
    );
    assert!(ended.is_some(), "the tree is good");
    found
}

/// The place of the record that has the key, none where none has; none at all if the file is not
/// good or the records have no such field.
pub fn find(file: &[u8], tree: &Tree, key: Field, sought: u64) -> Option<Option<usize>> {
    if tree.total_records == 0 || tree.root_records == 0 {
        return Some(None);
    }
    let size = usize::from(tree.geometry.record_size);
    let bytes = key.start as usize..key.start.checked_add(key.width)? as usize;
    let has_key = (1..=8).contains(&key.width) && bytes.end <= size;
    if size == 0 || tree.depth > LEVEL_LIMIT || !has_key {
        return None;
    }
    let walk = Walk::new(file, tree);
    let (mut address, mut count) = (tree.root_address, tree.root_records);
    let mut found = None;
    for level in (0..=tree.depth).rev() {
        let Range { start, end } = walk.records(level, address, count)?;
        let records = file[start..end].chunks_exact(size);
        let mut keys = (0..).zip(records.map(|record| key_of(&record[bytes.clone()])));
        let bound = keys.find(|(_, key)| *key >= sought);
        let i = bound.map_or(count.into(), |(i, _)| i);
        if bound.is_some_and(|(_, key)| key == sought) {
            found = Some(start + i * size);
        }
        if level > 0 {
            (address, count) = walk.child(level, end, i);
        }
    }
    Some(found)
}

/// The number in a key's bytes: for a few bytes quicker than `number`.
fn key_of(bytes: &[u8]) -> u64 {
    let bytes = bytes.iter().rev();
    bytes.fold(0, |high, low| high << 8 | u64::from(*low))
}

/// The bytes of the numbers in a pointer: of a node's records, and of a subtree's by its level.
struct Widths {
    count: usize,
    totals: [usize; LEVEL_LIMIT as usize + 1],
}

impl Widths {
    fn new(geometry: Geometry, depth: u16) -> Widths {
        let width = |number: u64| 8 - (number | 1).leading_zeros() as usize / 8;
        let space = u64::from(geometry.node_size).saturating_sub(10);
        let record = u64::from(geometry.record_size);
        let mut under = space / record;
        let count = width(under);
        let mut totals = [0; LEVEL_LIMIT as usize + 1];
        for level in 1..=usize::from(depth) {
            let pointer = (usize::from(geometry.offset_size) + count + totals[level - 1]) as u64;
            let most = space.saturating_sub(pointer) / (record + pointer);
            under = (most + 1).saturating_mul(under).saturating_add(most);
            totals[level] = width(under);
        }
        Widths { count, totals }
    }
}

struct Walk<'a> {
    file: &'a [u8],
    record: usize,
    offset_size: usize,
    widths: Widths,
}

impl<'a> Walk<'a> {
    fn new(file: &'a [u8], tree: &Tree) -> Walk<'a> {
        Walk {
            file,
            record: tree.geometry.record_size.into(),
            offset_size: tree.geometry.offset_size.into(),
            widths: Widths::new(tree.geometry, tree.depth),
        }
    }

    /// The place of a node's records; none where the node is not good.
    fn records(&self, level: u16, address: u64, count: u16) -> Option<Range<usize>> {
        let at = usize::try_from(address).ok()?;
        let signature = self.file.get(at..at.checked_add(6)?)?;
        let (from, to) = (at + 6, at + 6 + usize::from(count) * self.record);
        let good = match level {
            0 => {
                let node = self.file.get(at..to)?;
                let stored = self.file.get(to..to + 4).map(number);
                let computed = || nuldrafon::jenkins_lookup3(node);
                signature.starts_with(b"BTLF") && stored.is_none_or(|sum| sum == computed().into())
            }
            _ => {
                let end = to + (usize::from(count) + 1) * self.pointer(level);
                self.file.get(to..end)?;
                signature.starts_with(b"BTIN") && matches!(self.offset_size, 2 | 4 | 8)
            }
        };
        good.then_some(from..to)
    }

    /// The bytes of a pointer in a node of a level from 1 on.
    fn pointer(&self, level: u16) -> usize {
        self.offset_size + self.widths.count + self.widths.totals[usize::from(level) - 1]
    }

    /// Address and records of child `i` of a good node whose pointers begin here.
    fn child(&self, level: u16, pointers: usize, i: usize) -> (u64, u16) {
        let pointer = &self.file[pointers + i * self.pointer(level)..];
        let (address, rest) = pointer.split_at(self.offset_size);
        (number(address), number(&rest[..self.widths.count]) as u16)
    }

    /// Hands out the places of the records, in order: a leaf's together, the others one by one.
    fn node(
        &self,
        level: u16,
        address: u64,
        count: u16,
        put: &mut impl FnMut(Range<usize>) -> Option<()>,
    ) -> Option<()> {
        let records = self.records(level, address, count)?;
        if level == 0 {
            return put(records);
        }
        for i in 0..=usize::from(count) {
            let (address, below) = self.child(level, records.end, i);
            self.node(level - 1, address, below, put)?;
            if i < usize::from(count) {
                let at = records.start + i * self.record;
                put(at..at + self.record)?;
            }
        }
        Some(())
    }
}

fn number(bytes: &[u8]) -> u64 {
    let mut eight = [0; 8];
    eight[..bytes.len()].copy_from_slice(bytes);
    u64::from_le_bytes(eight)
}
