//! The stored list of finds.

use super::{array, behind, tree_of, List, BLOCK};
use crate::calls::find::{Finding, Search};
use crate::calls::By;
use crate::compare::{Comparison, Held};
use crate::inputs::{Field, Tree};
use crate::model::Geometry;
use crate::random::Random;

pub const LIST: List = List {
    name: "finding",
    stored: include_str!("../../stored/finding.txt"),
    text,
    family,
};

const LAYOUT: &str = "\
// Finds: rows of the place in FIND_BYTES where the file begins, file length, tree type, node size,
// record size, depth, root address, root records, records in all, base, offset size, start and
// width of the key, key sought, and the six numbers of the answer. FIND_BYTES holds the files end
// to end; where a row's length is less than a file has, the file ends early.
";

/// A find in one of the files, or in the front of it.
struct Case {
    file: usize,
    length: usize,
    header: [u64; 8],
    offset_size: u8,
    key: Field,
    sought: u64,
}

impl Case {
    fn search<'a>(&self, files: &'a [Vec<u8>]) -> Search<'a> {
        Search {
            file: &files[self.file][..self.length],
            header: self.header,
            offset_size: self.offset_size,
            key: self.key,
        }
    }
}

type Change = fn(&mut Case);

const LAST: u64 = u64::MAX;
/// The field of the keys that are whole records.
const WHOLE: Field = Field::new(0, 8);

/// The files, and finds in them.
#[derive(Default)]
struct Finds {
    files: Vec<Vec<u8>>,
    cases: Vec<Case>,
}

/// A file and the header of its tree.
struct Target {
    file: usize,
    length: usize,
    tree: Tree,
}

impl Finds {
    /// Adds a file.
    fn file(&mut self, (file, tree): (Vec<u8>, Tree)) -> Target {
        let length = file.len();
        self.files.push(file);
        Target {
            file: self.files.len() - 1,
            length,
            tree,
        }
    }

    /// Adds a find, with what is changed in it.
    fn find(&mut self, at: &Target, key: Field, sought: u64, change: impl FnOnce(&mut Case)) {
        let mut case = Case {
            file: at.file,
            length: at.length,
            header: at.tree.figures(),
            offset_size: at.tree.geometry.offset_size,
            key,
            sought,
        };
        change(&mut case);
        self.cases.push(case);
    }

    /// Adds finds of several keys.
    fn keys(&mut self, at: &Target, key: Field, sought: impl IntoIterator<Item = u64>) {
        for sought in sought {
            self.find(at, key, sought, |_| {});
        }
    }
}

/// The tree at 40/8/8 of records that are their keys, behind so many bytes.
fn whole(keys: &[u64], front: usize) -> (Vec<u8>, Tree) {
    let records: Vec<u8> = keys.iter().flat_map(|key| key.to_le_bytes()).collect();
    tree_of(Geometry::new(40, 8, 8), front, &records)
}

fn finds() -> Finds {
    let mut finds = Finds::default();
    in_order(&mut finds);
    out_of_order(&mut finds);
    leaves(&mut finds);
    damaged(&mut finds);
    behind_the_block(&mut finds);
    finds
}

/// Trees whose keys never fall: of depth 2, whole records with equal keys, and records of 3 bytes
/// with keys of 2.
fn in_order(finds: &mut Finds) {
    let tree = finds.file(whole(&[10, 11, 20, 20, 30, 40, 50, 60], 45));
    finds.keys(&tree, WHOLE, [9, 10, 11, 20, 21, 30, 60, 61, LAST]);

    let keys: [u16; 8] = [2, 255, 256, 256, 256, 513, 600, 65_535];
    let record = |(i, key): (usize, &u16)| {
        let [low, high] = key.to_le_bytes();
        [i as u8, low, high]
    };
    let records = keys.iter().enumerate().map(record).collect::<Vec<_>>();
    let tree = finds.file(tree_of(Geometry::new(21, 3, 2), 3, &records.concat()));
    let sought = [0, 2, 255, 256, 257, 513, 65_535, 65_536, 65_536 + 255];
    finds.keys(&tree, Field::new(1, 2), sought);
    finds.keys(&tree, Field::new(0, 1), [0, 4, 7, 8, 256]);
    finds.keys(&tree, Field::new(0, 3), [65_281, 0x00ff_ff07]);
    finds.keys(&tree, Field::new(2, 2), [0]);
}

/// A tree whose keys fall: its leaves at 0 and 40, its root at 80. Whole, cut, and with other
/// headers and fields.
fn out_of_order(finds: &mut Finds) {
    let tree = finds.file(whole(&[29, 31, 30, 32], 0));
    finds.keys(&tree, WHOLE, 28..=33);
    for length in [0, 85, 93, 94, 111, 112] {
        finds.find(&tree, WHOLE, 30, |case| case.length = length);
    }
    for (start, width) in [(0, 0), (0, 9), (1, 8), (8, 1), (LAST, 1), (LAST - 7, 8)] {
        finds.keys(&tree, Field::new(start, width), [30]);
    }
    finds.keys(&tree, Field::new(7, 1), [0]);

    let headers: [Change; 10] = [
        |case| case.header = [5, 40, 0, 33, LAST, 1, 0, 0],
        |case| case.header = [5, 40, 0, 33, LAST, 0, 4, 0],
        |case| case.header = [5, 40, 0, 33, LAST, 1, 4, 0],
        |case| case.header[3] = 33,
        |case| case.header[3] = 65_535,
        |case| case.header[4] = LAST - 3,
        |case| case.header[4] = 81,
        |case| case.offset_size = 3,
        |case| case.header[3] += 1 << 16,
        |case| case.header = [261, 40 + (1 << 32), 65_544, 1, 80, 65_537, 1, 0],
    ];
    for (number, change) in headers.into_iter().enumerate() {
        // The tests before the root come in the order that they have, so a wrong field too.
        let key = Field::new(0, if number < 5 { 0 } else { 8 });
        finds.find(&tree, key, 30, change);
    }
}

/// A leaf: in any order of keys, by any offset size, and cut.
fn leaves(finds: &mut Finds) {
    let leaf = finds.file(whole(&[5, 1, 7], 0));
    finds.keys(&leaf, WHOLE, [1, 4, 5, 6, 7, 8]);
    finds.find(&leaf, WHOLE, 7, |case| case.offset_size = 3);
    for length in [5, 29, 30, 33] {
        finds.find(&leaf, WHOLE, 7, |case| case.length = length);
    }
}

/// Trees of two leaves, at 0 and 40, with one byte changed: the signature of the left leaf, a
/// record of it, the root's pointer to it.
fn damaged(finds: &mut Finds) {
    for place in [0, 6, 95] {
        let (mut file, tree) = whole(&[1, 2, 3, 4], 0);
        file[place] ^= 0xff;
        let tree = finds.file((file, tree));
        finds.keys(&tree, WHOLE, [3, 4]);
    }
}

/// A tree behind the block, of 13 bytes: its leaves at 2 and 42 of the part, its root at 82.
fn behind_the_block(finds: &mut Finds) {
    let (file, mut tree) = whole(&[1, 2, 3, 4], 2);
    tree.base = BLOCK.len() as u64;
    let tree = finds.file((behind(&file), tree));
    finds.keys(&tree, WHOLE, 0..=5);
    let changes: [Change; 13] = [
        |case| case.length = 13 + 87,
        |case| case.length = 13 + 95,
        |case| case.length = 13 + 113,
        |case| case.header[7] = 0,
        |case| case.header[7] += 1,
        |case| (case.header[4], case.header[7]) = (82 + 13, 0),
        |case| case.header[7] = case.length as u64,
        |case| case.header[7] = case.length as u64 + 1,
        |case| case.header[7] = LAST,
        |case| (case.header[6], case.header[7]) = (0, LAST),
        |case| (case.header[2], case.header[7]) = (0, LAST),
        |case| (case.key.width, case.header[7]) = (0, LAST),
        |case| (case.length, case.header[6], case.header[7]) = (0, 0, 1),
    ];
    for change in changes {
        finds.find(&tree, WHOLE, 2, change);
    }
}

fn text(by: By) -> String {
    let Finds { files, cases } = finds();
    let begin = |file: usize| files[..file].iter().map(Vec::len).sum::<usize>();
    let row = |case: &Case| {
        let finding = Finding {
            search: case.search(&files),
            sought: case.sought,
            collected: None,
        };
        let mut row = vec![begin(case.file) as u64, case.length as u64];
        row.extend(case.header);
        row.push(case.offset_size.into());
        row.extend([case.key.start, case.key.width, case.sought]);
        row.extend(by.answer(&finding, &mut []));
        row
    };
    let rows: Vec<Vec<u64>> = cases.iter().map(row).collect();
    let rows = array("FIND_ROWS", "u64", &rows);
    format!("{LAYOUT}{rows}{}", array("FIND_BYTES", "u8", &files))
}

fn family(to: &mut Comparison, _: &mut Random) -> Held {
    let Finds { files, cases } = finds();
    cases
        .iter()
        .try_for_each(|case| to.hold_finds("stored", case.search(&files), [case.sought]))
}
