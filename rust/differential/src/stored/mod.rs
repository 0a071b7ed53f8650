//! The stored lists of answers, for runs that do not have the Rust: texts of array constants.

pub mod checksum;
pub mod collecting;
pub mod finding;
pub mod headers;
pub mod images;
pub mod looks;
pub mod plans;
pub mod records;

use crate::calls::By;
use crate::compare::{Comparison, Family, Held};
use crate::inputs::{Tree, Writing};
use crate::model::{self, plan, Geometry};

/// A stored list of the answers of one call.
pub struct List {
    pub name: &'static str,
    pub stored: &'static str,
    /// The list as someone gives it.
    pub text: fn(By) -> String,
    /// Its inputs as a family of cases.
    pub family: Family,
}

pub const LISTS: [List; 8] = [
    plans::LIST,
    images::LIST,
    headers::LIST,
    collecting::LIST,
    looks::LIST,
    finding::LIST,
    records::READ,
    records::WRITTEN,
];

impl List {
    /// Holds what someone gives to the stored list.
    pub fn hold(&self, by: By) -> Held {
        hold_text(&(self.text)(by), self.stored)
    }

    /// Holds the model to the Rust on the list's inputs; returns to how many the Rust has an answer.
    pub fn agrees(&self) -> Result<u64, String> {
        let mut comparison = Comparison::of_model(self.name);
        comparison.run([self.family], 0)?;
        Ok(comparison.tally.with_rust())
    }
}

/// Holds a text to the stored one.
fn hold_text(given: &str, stored: &str) -> Held {
    let mut lines = given.lines().zip(stored.lines());
    if let Some((now, then)) = lines.find(|(now, then)| now != then) {
        return Err(format!("now \"{now}\", stored \"{then}\""));
    }
    if given.len() != stored.len() {
        return Err("the stored list has another length".to_string());
    }
    Ok(())
}

/// The text of an array constant: each row begins a line.
fn array<N: Copy + Into<u64>>(name: &str, kind: &str, rows: &[Vec<N>]) -> String {
    const A_LINE: usize = 20;
    let numbers: usize = rows.iter().map(Vec::len).sum();
    let mut text = format!("const {name}: [{kind}; {numbers}] = [\n");
    for line in rows.iter().flat_map(|row| row.chunks(A_LINE)) {
        let shown: Vec<String> = line.iter().map(|&n| n.into().to_string()).collect();
        text.push_str(&format!("    {},\n", shown.join(", ")));
    }
    text.push_str("];\n");
    text
}

/// A block to put in front of files: it begins as a leaf does, and as a header in it.
const BLOCK: [u8; 13] = *b"BTLF\0\x05 BTHD\0\x05";

/// A file with the block in front.
fn behind(file: &[u8]) -> Vec<u8> {
    [&BLOCK, file].concat()
}

/// A file with the tree of these records behind so many other bytes, without the zeros after its
/// root, and what its header says.
fn tree_of(geometry: Geometry, front: usize, records: &[u8]) -> (Vec<u8>, Tree) {
    let record_count = records.len() as u64 / u64::from(geometry.record_size);
    let plan = plan(record_count, geometry).expect("the sample tree has a plan");
    let given = Writing {
        tree_type: 5,
        record_count,
        geometry,
        length_size: 8,
        start: front as u64,
        records,
    };
    let mut file = vec![0xaa; front + plan.image_size as usize];
    let written = model::write(&given, &mut [0; 38], &mut file[front..]);
    written.expect("the sample tree is written");
    let zeros = file.iter().rev().take_while(|&&byte| byte == 0).count();
    file.truncate(file.len() - zeros);
    let tree = Tree {
        tree_type: given.tree_type,
        geometry,
        depth: plan.depth,
        root_address: plan.root_address(given.start, geometry),
        root_records: plan.root_records(record_count) as u16,
        total_records: record_count,
        base: 0,
    };
    (file, tree)
}
