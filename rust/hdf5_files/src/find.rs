//! Records found by their keys: every key that a tree has, and keys that it has not.

use std::collections::{BTreeMap, BTreeSet};
use std::ops::Range;

use nuldrafon::Field;

use crate::bytes::{number, part, same, Fault};
use crate::tree::Tree;

/// In trees of more keys, those that are not there are taken from beside so many.
const MOST_NEIGHBOURS: usize = 10_000;

/// The finds of a file: those that gave a record, those that gave the record of another name with
/// the same hash, and those of keys that are not there.
#[derive(Clone, Copy, Default)]
pub struct Finds {
    pub found: u64,
    pub shared: u64,
    pub absent: u64,
}

impl Finds {
    pub fn add(&mut self, other: Finds) {
        self.found += other.found;
        self.shared += other.shared;
        self.absent += other.absent;
    }
}

/// A tree whose keys never fall, with the place of the first record of each key.
pub struct Index<'a> {
    file: &'a [u8],
    /// The part from the base on.
    hdf5: &'a [u8],
    tree: &'a Tree,
    field: Field,
    first: BTreeMap<u64, u64>,
}

impl<'a> Index<'a> {
    /// The tree by the field at these bytes of its records.
    pub fn new(file: &'a [u8], tree: &'a Tree, key: Range<usize>) -> Result<Self, Fault> {
        let (mut first, mut last) = (BTreeMap::new(), 0);
        let hdf5 = &file[tree.header.base as usize..];
        same("places", tree.places.len(), tree.rows().count())?;
        for (row, &place) in tree.rows().zip(&tree.places) {
            let key = number(&row[key.clone()]);
            same("record at its place", part(hdf5, place, row.len())?, row)?;
            same("a key that does not fall", key >= last, true)?;
            first.entry(key).or_insert(place);
            last = key;
        }
        let field = Field::new(key.start as u64, key.len() as u64);
        Ok(Self {
            file,
            hdf5,
            tree,
            field,
            first,
        })
    }

    /// The record that is found, none where none is: that at the place of the first one with the
    /// key, by one node of each level.
    pub fn find(&self, key: u64) -> Result<Option<&'a [u8]>, Fault> {
        let header = &self.tree.header;
        let found = header.find(self.file, self.field, key);
        let found = found.map_err(|error| format!("finding {key}, {error}"))?;
        let levels = match header.total_records {
            0 => 0,
            _ => u64::from(header.depth) + 1,
        };
        same("nodes read in a find", found.nodes, levels)?;
        let due = self.first.get(&key).copied();
        same("place of a key", (key, found.place), (key, due))?;
        let record = |place| part(self.hdf5, place, self.tree.record_size());
        found.place.map(record).transpose()
    }

    /// Every key of the tree.
    pub fn keys(&self) -> Result<u64, Fault> {
        for key in self.first.keys() {
            self.find(*key)?;
        }
        Ok(self.first.len() as u64)
    }

    /// Keys that are not there: beside those that are, above these by what the field can hold, and
    /// at both ends.
    pub fn absent(&self) -> Result<u64, Fault> {
        let most = u64::MAX >> (64 - 8 * self.field.width);
        let some = self
            .first
            .keys()
            .step_by(1 + self.first.len() / MOST_NEIGHBOURS);
        let steps = [u64::MAX, 1, most.wrapping_add(1)];
        let beside = some.flat_map(|key| steps.map(|step| key.wrapping_add(step)));
        let all = beside.chain([0, most, u64::MAX]);
        let absent: BTreeSet<u64> = all.filter(|key| !self.first.contains_key(key)).collect();
        for key in &absent {
            self.find(*key)?;
        }
        Ok(absent.len() as u64)
    }
}
