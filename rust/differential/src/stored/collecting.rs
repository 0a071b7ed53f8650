//! The stored list of collecting.

use super::images::BEFORE;
use super::{array, behind, tree_of, List, BLOCK};
use crate::calls::collect::Collecting;
use crate::calls::By;
use crate::compare::{Comparison, Held};
use crate::model::Geometry;
use crate::random::Random;

pub const LIST: List = List {
    name: "collecting",
    stored: include_str!("../../stored/collecting.txt"),
    text,
    family,
};

const LAYOUT: &str = "\
// Collecting: rows of file length, tree type, node size, record size, depth, root address, root
// records, records in all, base, offset size, output length, and the seven numbers of the answer.
// Every byte of the output is 238 before the call. COLLECT_BYTES holds for each row the file and
// then the output as the call leaves it.
";

/// A collecting.
struct Case {
    file: Vec<u8>,
    header: [u64; 8],
    offset_size: u8,
    output_length: usize,
}

impl Case {
    fn collecting(&self) -> Collecting<'_> {
        Collecting {
            file: &self.file,
            header: self.header,
            offset_size: self.offset_size,
            output_length: self.output_length,
            room: 1_000,
        }
    }
}

/// A tree of numbered bytes behind 3 others, without the zeros after its root.
fn written(geometry: Geometry, record_count: u64) -> Case {
    let length = record_count as usize * usize::from(geometry.record_size);
    let records: Vec<u8> = (0..length).map(|i| i as u8).collect();
    let (file, tree) = tree_of(geometry, 3, &records);
    Case {
        file,
        header: tree.figures(),
        offset_size: geometry.offset_size,
        output_length: length + 2,
    }
}

fn cases() -> Vec<Case> {
    let mut cases: Vec<Case> = [
        (Geometry::new(40, 8, 8), 0),
        (Geometry::new(40, 8, 8), 3),
        (Geometry::new(40, 8, 8), 4),
        (Geometry::new(30, 2, 2), 40),
        (Geometry::new(280, 1, 4), 280),
    ]
    .map(|(geometry, count)| written(geometry, count))
    .into();
    let small = |record_count| written(Geometry::new(21, 3, 2), record_count);
    for (record_count, fault) in FAULTS {
        let mut case = small(record_count);
        fault(&mut case);
        cases.push(case);
    }
    for (record_count, fault) in BEHIND_THE_BLOCK {
        let mut case = small(record_count);
        case.file = behind(&case.file);
        case.header[7] = BLOCK.len() as u64;
        fault(&mut case);
        cases.push(case);
    }
    cases
}

type Fault = fn(&mut Case);

/// What can go wrong with a tree of 3 records (a leaf at 3, whose records end at 18), of 4 (leaves
/// at 3 and 24, root at 45) or of 8 (leaves at 3, 24, 66 and 87, internal nodes at 45 and 108, root
/// at 129).
const FAULTS: [(u64, Fault); 27] = [
    (8, |case| case.output_length = 24),
    (8, |case| case.output_length = 23),
    (8, |case| case.output_length = 8),
    (4, |case| case.output_length = 6),
    (4, |case| case.output_length = 2),
    (4, |case| case.output_length = 0),
    (8, |case| case.file[45] ^= 1),
    (8, |case| case.file[66] ^= 1),
    (8, |case| case.file[93] ^= 1),
    (8, |case| case.file[118] ^= 0x40),
    (4, |case| case.file[45] ^= 1),
    (4, |case| case.file[51] ^= 1),
    (4, |case| case.file[54] ^= 0xff),
    (4, |case| case.file[56] ^= 0x02),
    (4, |case| case.file.truncate(50)),
    (4, |case| case.file.truncate(53)),
    (4, |case| case.file.truncate(59)),
    (4, |case| case.header[4] = u64::MAX - 3),
    (4, |case| case.offset_size = 1),
    (4, |case| case.header[2] = 0),
    (4, |case| case.header[3] = 33),
    (4, |case| case.header[6] = 0),
    (3, |_| ()),
    (3, |case| case.file.truncate(21)),
    (3, |case| case.file.truncate(18)),
    (3, |case| case.file.truncate(17)),
    (3, |case| {
        case.file.truncate(21);
        case.file[20] ^= 1;
    }),
];

/// The same behind the block, of 13 bytes: nodes stand 13 bytes later, and have the addresses that
/// they had.
const BEHIND_THE_BLOCK: [(u64, Fault); 22] = [
    (8, |_| ()),
    (4, |_| ()),
    (8, |case| case.output_length = 8),
    (8, |case| case.file[13 + 66] ^= 1),
    (8, |case| case.file[13 + 93] ^= 1),
    (4, |case| case.file.truncate(13 + 50)),
    (4, |case| case.file.truncate(13 + 53)),
    (4, |case| case.file.truncate(13 + 59)),
    (4, |case| case.header[4] = u64::MAX - 3),
    (4, |case| case.offset_size = 1),
    (4, |case| case.header[2] = 0),
    (4, |case| case.header[3] = 33),
    (4, |case| case.header[6] = 0),
    (4, |case| case.header[7] = 0),
    (4, |case| case.header[7] = case.file.len() as u64),
    (4, |case| case.header[7] = case.file.len() as u64 + 1),
    (4, |case| case.header[7] = u64::MAX),
    (4, |case| case.header = [5, 21, 3, 1, 45, 1, 0, 1_000]),
    (4, |case| case.header = [5, 21, 0, 33, 45, 1, 4, 1_000]),
    (4, |case| {
        case.header = [261, 21 + (1 << 32), 65_539, 65_537, 45, 65_537, 4, 13];
    }),
    (3, |case| case.file.truncate(13 + 21)),
    (3, |case| case.file.truncate(13 + 18)),
];

fn text(by: By) -> String {
    let mut rows: Vec<Vec<u64>> = Vec::new();
    let mut bytes: Vec<Vec<u8>> = Vec::new();
    for case in cases() {
        let mut lent = [vec![BEFORE; case.output_length]];
        let answer = by.answer(&case.collecting(), &mut lent);
        let [output] = lent;
        let mut row = vec![case.file.len() as u64];
        row.extend(case.header);
        row.extend([case.offset_size.into(), output.len() as u64]);
        row.extend(answer);
        rows.push(row);
        bytes.extend([case.file, output]);
    }
    let rows = array("COLLECT_ROWS", "u64", &rows);
    format!("{LAYOUT}{rows}{}", array("COLLECT_BYTES", "u8", &bytes))
}

fn family(to: &mut Comparison, _: &mut Random) -> Held {
    cases()
        .iter()
        .try_for_each(|case| to.hold("stored", &case.collecting()))
}
