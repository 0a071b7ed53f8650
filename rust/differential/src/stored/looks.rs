//! The stored list of looks at a leaf.

use super::images::BEFORE;
use super::{array, behind, tree_of, List, BLOCK};
use crate::calls::leaf_record::Look;
use crate::calls::By;
use crate::compare::{Comparison, Held};
use crate::inputs::Leaf;
use crate::model::Geometry;
use crate::random::Random;

pub const LIST: List = List {
    name: "looks",
    stored: include_str!("../../stored/looks.txt"),
    text,
    family,
};

const LAYOUT: &str = "\
// Looks at a leaf: rows of file length, base, address, count, record size, index, output length,
// and the three numbers of the answer. Every byte of the output is 238 before the call. LOOK_BYTES
// holds for each row the file and then the output as the call leaves it.
";

/// A look.
struct Case {
    file: Vec<u8>,
    leaf: Leaf,
    index: u64,
    output_length: usize,
}

/// Record 1 of a leaf of 3 records of 3 bytes at 2, into an output of 5 bytes. The leaf's checksum
/// ends at 21, and with it the file.
fn written() -> Case {
    let records: Vec<u8> = (1..=9).collect();
    let (file, tree) = tree_of(Geometry::new(19, 3, 2), 2, &records);
    Case {
        file,
        leaf: Leaf {
            base: 0,
            address: tree.root_address,
            count: tree.root_records,
            record_size: tree.geometry.record_size,
        },
        index: 1,
        output_length: 5,
    }
}

type Change = fn(&mut Case);

/// What is changed in the look.
const CHANGES: [Change; 23] = [
    |_| (),
    |case| case.index = 0,
    |case| case.index = 2,
    |case| case.index = 3,
    |case| case.index = u64::MAX,
    |case| case.index = (1 << 16) + 1,
    |case| case.output_length = 3,
    |case| case.output_length = 2,
    |case| (case.index, case.output_length) = (3, 0),
    |case| case.leaf.record_size = 0,
    |case| case.leaf.address = 16,
    |case| case.leaf.address = u64::MAX,
    |case| case.leaf.address = 1,
    |case| case.leaf.count = 5,
    |case| case.leaf.count = 4,
    |case| case.leaf.count = 2,
    |case| case.file[8] ^= 1,
    |case| case.file.truncate(20),
    |case| case.leaf.count = 0,
    |case| case.file.truncate(17),
    |case| case.file.truncate(16),
    |case| (case.leaf.count, case.file) = (0, case.file[..11].to_vec()),
    |case| (case.leaf.count, case.file) = (0, case.file[..8].to_vec()),
];

/// What is changed in the look behind the block, of 13 bytes.
const BEHIND_THE_BLOCK: [Change; 17] = [
    |_| (),
    |case| (case.leaf.base, case.leaf.address) = (15, 0),
    |case| (case.leaf.base, case.leaf.address) = (0, 15),
    |case| case.leaf.base = 0,
    |case| case.leaf.base += 1,
    |case| case.output_length = 2,
    |case| case.leaf.count = 5,
    |case| case.file[13 + 8] ^= 1,
    |case| case.file.truncate(13 + 7),
    |case| case.file.truncate(13 + 20),
    |case| case.file.truncate(13 + 17),
    |case| case.leaf.record_size = 0,
    |case| case.leaf.base = case.file.len() as u64,
    |case| case.leaf.base = case.file.len() as u64 + 1,
    |case| case.leaf.base = u64::MAX,
    |case| (case.leaf.base, case.leaf.record_size) = (u64::MAX, 0),
    |case| (case.leaf.base, case.file) = (1, Vec::new()),
];

fn cases() -> Vec<Case> {
    let mut cases = Vec::from(CHANGES.map(|change| {
        let mut case = written();
        change(&mut case);
        case
    }));
    cases.extend(BEHIND_THE_BLOCK.map(|change| {
        let mut case = written();
        case.file = behind(&case.file);
        case.leaf.base = BLOCK.len() as u64;
        change(&mut case);
        case
    }));
    cases
}

fn text(by: By) -> String {
    let mut rows: Vec<Vec<u64>> = Vec::new();
    let mut bytes: Vec<Vec<u8>> = Vec::new();
    for case in cases() {
        let Case {
            file,
            leaf,
            index,
            output_length,
        } = case;
        let look = Look {
            file: &file,
            leaf,
            index,
            output_length,
            theirs: None,
        };
        let mut lent = [vec![BEFORE; output_length]];
        let answer = by.answer(&look, &mut lent);
        let [output] = lent;
        let mut row = vec![file.len() as u64, leaf.base, leaf.address];
        row.extend([leaf.count, leaf.record_size].map(u64::from));
        row.extend([index, output_length as u64]);
        row.extend(answer);
        rows.push(row);
        bytes.extend([file, output]);
    }
    let rows = array("LOOK_ROWS", "u64", &rows);
    format!("{LAYOUT}{rows}{}", array("LOOK_BYTES", "u8", &bytes))
}

fn family(to: &mut Comparison, _: &mut Random) -> Held {
    cases().iter().try_for_each(|case| {
        let look = (case.index, case.output_length);
        to.hold_looks("stored", &case.file, &case.leaf, [look])
    })
}
