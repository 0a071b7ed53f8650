//! Records by their meaning: the values of their fields, held to the names and the creation orders
//! that the library says, and to those of the object's other tree.

use std::collections::HashMap;

use nuldrafon::RecordValues;

use crate::bytes::{same, Fault};
use crate::list::{Entries, Named};
use crate::tree::Tree;

/// The tree types whose records are read by their meaning, and the bytes of a record of each.
const TYPES: [(u8, usize); 4] = [(5, 11), (6, 15), (8, 17), (9, 13)];

/// Other tree types, beside and between those.
const OTHERS: [u8; 4] = [4, 7, 10, 11];

/// The refusals of a tree type that is none of the four, and of a record that is not of the type.
const UNKNOWN_TYPE: u64 = 19;
const WRONG_LENGTH: u64 = 20;

/// Records that were read by their meaning and written again, in the order of `TYPES`, and reads as
/// another type, which were refused.
#[derive(Clone, Copy, Default)]
pub struct Meanings {
    read: [u64; 4],
    refused: u64,
}

impl Meanings {
    pub fn add(&mut self, other: Meanings) {
        for (all, own) in self.read.iter_mut().zip(other.read) {
            *all += own;
        }
        self.refused += other.refused;
    }

    pub fn print(&self) -> Result<(), Fault> {
        let types = TYPES.iter().zip(self.read);
        let types: Vec<String> = types
            .map(|((kind, _), read)| format!("{read} of type {kind}"))
            .collect();
        println!(
            "{} records read by their meaning and written again, {}; {} reads as another type refused",
            self.read.iter().sum::<u64>(),
            types.join(", "),
            self.refused
        );
        same("records of every type", self.read.contains(&0), false)
    }
}

/// Reads the records of a file's trees by their meaning, and holds them to its list.
pub fn file(trees: &[Tree], entries: &Entries) -> Result<Meanings, Fault> {
    let mut meanings = Meanings::default();
    let mut values = HashMap::new();
    for tree in trees {
        let kind = tree.header.tree_type;
        meanings.refused += refused(tree)?;
        if let Some(place) = TYPES.iter().position(|one| one.0 == kind) {
            let read = read(tree, TYPES[place].1)?;
            meanings.read[place] += read.len() as u64;
            values.insert(kind, read);
        }
    }
    match entries {
        Entries::Links(names) => agree([5, 6], &values, names)?,
        Entries::Attributes(names) => agree([8, 9], &values, names)?,
        Entries::Chunks(_) => same("records of chunks", values.is_empty(), true)?,
    }
    Ok(meanings)
}

/// Reads every record of a tree, each of so many bytes, and writes it again: the same bytes.
fn read(tree: &Tree, length: usize) -> Result<Vec<RecordValues>, Fault> {
    let kind = tree.header.tree_type;
    same("record size of the type", tree.record_size(), length)?;
    let mut all = Vec::new();
    for row in tree.rows() {
        let values = RecordValues::read(kind, row);
        let values = values.map_err(|refusal| format!("record of type {kind}: {refusal}"))?;
        // Into other bytes, so that one that is left shows.
        let mut output: Vec<u8> = row.iter().map(|byte| !byte).collect();
        same(
            "length written",
            values.write(kind, &mut output),
            Ok(length),
        )?;
        same("record written again", &output[..], row)?;
        all.push(values);
    }
    Ok(all)
}

/// Reads every record of a tree as each type that it is not of, and tells how often. The lengths of
/// all types differ.
fn refused(tree: &Tree) -> Result<u64, Fault> {
    let known = TYPES.map(|(kind, _)| (kind, WRONG_LENGTH));
    let others = OTHERS.map(|kind| (kind, UNKNOWN_TYPE));
    let own = (tree.header.tree_type, WRONG_LENGTH);
    let mut count = 0;
    for row in tree.rows() {
        for (kind, due) in known.into_iter().chain(others).filter(|one| *one != own) {
            let read = RecordValues::read(kind, row);
            let number = read.map_err(|refusal| refusal.number());
            same("record read as another type", number, Err(due))?;
            count += 1;
        }
    }
    Ok(count)
}

/// The entry of each record by creation order is that of the name with this order, and one record by
/// name has its heap id; both have all values of the entry that their types have fields for.
fn agree(
    kinds: [u8; 2],
    values: &HashMap<u8, Vec<RecordValues>>,
    names: &[Named],
) -> Result<(), Fault> {
    let [Some(by_name), Some(by_order)] = kinds.map(|kind| values.get(&kind)) else {
        return Err(format!("no trees of the types {kinds:?}"));
    };
    let counts = [by_name.len(), by_order.len()];
    same("records", counts, [names.len(); 2])?;
    let mut hashes: HashMap<u64, u64> = names.iter().map(|one| (one.order, hash(one))).collect();
    let mut entries = HashMap::new();
    for record in by_order {
        let hash = hashes.remove(&record.creation_order);
        let name_hash = hash.ok_or("a creation order that no name has, or comes twice")?;
        let entry = RecordValues {
            name_hash,
            ..*record
        };
        same("record by order", *record, held(kinds[1], entry))?;
        entries.insert(record.heap_id, entry);
    }
    for record in by_name {
        let entry = entries.remove(&record.heap_id);
        let entry = entry.ok_or("a heap id that is none by order, or comes twice")?;
        same("record by name", *record, held(kinds[0], entry))?;
    }
    Ok(())
}

fn hash(named: &Named) -> u64 {
    nuldrafon::jenkins_lookup3(named.name.as_bytes()).into()
}

/// An entry as a record of this type holds it: 0 where the type lacks the field.
fn held(kind: u8, entry: RecordValues) -> RecordValues {
    let RecordValues {
        name_hash,
        heap_id,
        message_flags,
        creation_order,
    } = entry;
    let only = |kinds: &[u8], value| if kinds.contains(&kind) { value } else { 0 };
    RecordValues {
        name_hash: only(&[5, 8], name_hash),
        heap_id,
        message_flags: only(&[8, 9], message_flags),
        creation_order: only(&[6, 8, 9], creation_order),
    }
}
