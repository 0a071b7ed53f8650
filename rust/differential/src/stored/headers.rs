//! The stored list of headers read.

use super::{array, behind, List, BLOCK};
use crate::calls::parse::Parsing;
use crate::calls::By;
use crate::compare::{Comparison, Held};
use crate::inputs::Writing;
use crate::model::{self, header_size, Geometry};
use crate::random::Random;

pub const LIST: List = List {
    name: "headers",
    stored: include_str!("../../stored/headers.txt"),
    text,
    family,
};

const LAYOUT: &str = "\
// Headers read: rows of file length, base, offset, offset size, length size, and the nine numbers
// of the answer. HEADER_BYTES holds the files end to end.
";

/// A reading.
struct Case {
    file: Vec<u8>,
    base: u64,
    offset: u64,
    sizes: (u8, u8),
}

impl Case {
    fn parsing(&self) -> Parsing<'_> {
        Parsing {
            file: &self.file,
            base: self.base,
            offset: self.offset,
            sizes: self.sizes,
        }
    }
}

/// A file with a header of 4 records at 40/8 behind so many bytes, and one byte after it.
fn written(front: usize, offset_size: u8, length_size: u8) -> Vec<u8> {
    let given = Writing {
        tree_type: 9,
        record_count: 4,
        geometry: Geometry::new(40, 8, offset_size),
        length_size,
        start: 0x1234,
        records: &[0; 32],
    };
    let mut file = vec![0xaa; front + header_size(offset_size, length_size) + 1];
    let plan = model::write(&given, &mut file[front..], &mut [0; 120]);
    plan.expect("the sample header is written");
    file
}

/// Pairs of field sizes of headers, and those that one header, of sizes 4 and 2, is read with.
const SIZES: [(u8, u8); 5] = [(8, 8), (2, 2), (4, 8), (8, 4), (2, 8)];
const OTHER_SIZES: [(u8, u8); 6] = [(3, 2), (0, 2), (4, 3), (4, 255), (2, 2), (4, 8)];
/// Where that header, at 3, is damaged, where the file is cut, and where else it is read.
const PLACES: [usize; 9] = [3, 7, 9, 13, 17, 19, 24, 28, 30];
const LENGTHS: [usize; 14] = [0, 2, 6, 7, 18, 19, 22, 23, 24, 25, 26, 27, 30, 31];
const LAST: u64 = u64::MAX;
const OFFSETS: [u64; 8] = [0, 4, 27, 28, LAST - 16, LAST - 4, LAST - 3, LAST];

/// A reading without a base.
fn read(file: &[u8], offset: u64, sizes: (u8, u8)) -> Case {
    Case {
        file: file.to_vec(),
        base: 0,
        offset,
        sizes,
    }
}

fn cases() -> Vec<Case> {
    let mut cases = without_base();
    cases.extend(behind_blocks());
    cases
}

fn without_base() -> Vec<Case> {
    let file = written(3, 4, 2);
    let damaged = |&place: &usize| {
        let mut damaged = file.clone();
        damaged[place] ^= 0x11;
        read(&damaged, 3, (4, 2))
    };
    let written = SIZES.iter().enumerate().map(|(front, &sizes)| {
        let file = written(front, sizes.0, sizes.1);
        read(&file, front as u64, sizes)
    });
    written
        .chain(PLACES.iter().map(damaged))
        .chain(LENGTHS.map(|length| read(&file[..length], 3, (4, 2))))
        .chain(OTHER_SIZES.map(|sizes| read(&file, 3, sizes)))
        .chain(OFFSETS.map(|offset| read(&file, offset, (4, 2))))
        .collect()
}

type Change = fn(&mut Case);

/// What is changed in the read of that header behind the block.
const CHANGES: [Change; 17] = [
    |_| (),
    |case| (case.base, case.offset) = (case.base + 3, 0),
    |case| (case.base, case.offset) = (1, case.base + 2),
    |case| (case.base, case.offset) = (0, case.base + 3),
    |case| case.base = 0,
    |case| case.base += 1,
    |case| case.file[BLOCK.len() + 7] = 1,
    |case| case.sizes.0 = 3,
    |case| case.sizes.1 = 3,
    |case| case.file[BLOCK.len() + 28] ^= 0x11,
    |case| case.file.truncate(BLOCK.len() + 30),
    |case| case.file.truncate(BLOCK.len() + 6),
    |case| case.offset = LAST,
    |case| case.base = case.file.len() as u64,
    |case| case.base = case.file.len() as u64 + 1,
    |case| case.base = LAST,
    |case| (case.base, case.offset) = (LAST, case.base + 4),
];

/// That header behind the block; a header behind 100 bytes and 7 more in a file that ends in it;
/// empty files.
fn behind_blocks() -> Vec<Case> {
    let file = written(3, 4, 2);
    let mut cases = Vec::from(CHANGES.map(|change| {
        let mut case = read(&behind(&file), 3, (4, 2));
        case.base = BLOCK.len() as u64;
        change(&mut case);
        case
    }));
    let cut = [vec![0xaa; 100], written(7, 8, 8)].concat();
    for (file, base, offset) in [(&cut[..120], 100, 7), (&[], 0, 0), (&[], 1, 0)] {
        let case = read(file, offset, (8, 8));
        cases.push(Case { base, ..case });
    }
    cases
}

fn text(by: By) -> String {
    let cases = cases();
    let rows: Vec<Vec<u64>> = cases
        .iter()
        .map(|case| {
            let (offset_size, length_size) = case.sizes;
            let mut row = vec![case.file.len() as u64, case.base, case.offset];
            row.extend([offset_size, length_size].map(u64::from));
            row.extend(by.answer(&case.parsing(), &mut []));
            row
        })
        .collect();
    let files: Vec<Vec<u8>> = cases.into_iter().map(|case| case.file).collect();
    let rows = array("HEADER_ROWS", "u64", &rows);
    format!("{LAYOUT}{rows}{}", array("HEADER_BYTES", "u8", &files))
}

fn family(to: &mut Comparison, _: &mut Random) -> Held {
    cases()
        .iter()
        .try_for_each(|case| to.hold("stored", &case.parsing()))
}
