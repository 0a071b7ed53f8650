//! The stored lists of records read and written by their meaning.

use super::images::BEFORE;
use super::{array, List};
use crate::calls::record_read::RecordReading;
use crate::calls::record_write::RecordDraft;
use crate::calls::By;
use crate::compare::{Comparison, Held};
use crate::inputs::RecordValues;
use crate::random::Random;

pub const READ: List = List {
    name: "record_read",
    stored: include_str!("../../stored/record_read.txt"),
    text: text_of_reads,
    family: reads,
};

pub const WRITTEN: List = List {
    name: "record_write",
    stored: include_str!("../../stored/record_write.txt"),
    text: text_of_writes,
    family: writes,
};

const LAYOUT_OF_READS: &str = "\
// Records read: rows of tree type, record length, and the five numbers of the answer.
// RECORD_READ_BYTES holds the record of each row.
";

const LAYOUT_OF_WRITES: &str = "\
// Records written: rows of tree type, name hash, heap id, message flags, creation order, output
// length, and the three numbers of the answer. Every byte of the output is 238 before the call.
// RECORD_WRITE_BYTES holds for each row the output as the call leaves it.
";

/// What the bytes of a record are.
enum Bytes {
    /// 1, 2, 3 and so on.
    Rising,
    /// All the same.
    All(u8),
    /// All 0 but for the top bit at a place.
    Bit(usize),
}
use Bytes::{All, Bit, Rising};

impl Bytes {
    fn record(&self, length: usize) -> Vec<u8> {
        let byte = |place: usize| match *self {
            Rising => place as u8 + 1,
            All(byte) => byte,
            Bit(at) => u8::from(place == at) << 7,
        };
        (0..length).map(byte).collect()
    }
}

/// Tree types, lengths and bytes of records: each type, each field's top bit, lengths around each
/// type's, other types.
const RECORDS: [(u8, usize, Bytes); 39] = [
    (5, 11, Rising),
    (6, 15, Rising),
    (8, 17, Rising),
    (9, 13, Rising),
    (5, 11, All(0)),
    (6, 15, All(0)),
    (8, 17, All(0)),
    (9, 13, All(0)),
    (5, 11, All(255)),
    (6, 15, All(255)),
    (8, 17, All(255)),
    (9, 13, All(255)),
    (5, 11, Bit(3)),
    (5, 11, Bit(10)),
    (6, 15, Bit(7)),
    (6, 15, Bit(14)),
    (8, 17, Bit(7)),
    (8, 17, Bit(8)),
    (8, 17, Bit(12)),
    (8, 17, Bit(16)),
    (9, 13, Bit(7)),
    (9, 13, Bit(8)),
    (9, 13, Bit(12)),
    (5, 0, Rising),
    (5, 10, Rising),
    (5, 12, Rising),
    (6, 14, Rising),
    (6, 16, Rising),
    (8, 13, Rising),
    (8, 16, Rising),
    (8, 18, Rising),
    (9, 12, Rising),
    (9, 14, Rising),
    (9, 17, Rising),
    (7, 0, Rising),
    (7, 17, Rising),
    (0, 11, Rising),
    (10, 13, Rising),
    (255, 17, Rising),
];

const LAST: u64 = u64::MAX;
/// The largest numbers of 7, 4 and 1 bytes.
const MOST_OF_7: u64 = (1 << 56) - 1;
const MOST_OF_4: u64 = (1 << 32) - 1;
const MOST_OF_1: u64 = 255;

/// Tree types, values in the order of a read's answer, and output lengths: each type, values at and
/// above the limits of each field, fields that a type lacks, short outputs, other types, and
/// several causes at once.
const DRAFTS: [(u8, [u64; 4], usize); 40] = [
    (5, [0x0403_0201, 0x000b_0a09_0807_0605, 0, 0], 11),
    (5, [0x0403_0201, 0x000b_0a09_0807_0605, 0, 0], 14),
    (6, [0, 0x000f_0e0d_0c0b_0a09, 0, 0x0807_0605_0403_0201], 15),
    (6, [0, 0x000f_0e0d_0c0b_0a09, 0, 0x0807_0605_0403_0201], 16),
    (8, [0x1110_0f0e, 0x0807_0605_0403_0201, 9, 0x0d0c_0b0a], 17),
    (8, [0x1110_0f0e, 0x0807_0605_0403_0201, 9, 0x0d0c_0b0a], 24),
    (9, [0, 0x0807_0605_0403_0201, 9, 0x0d0c_0b0a], 13),
    (9, [0, 0x0807_0605_0403_0201, 9, 0x0d0c_0b0a], 17),
    (5, [0, 0, 0, 0], 11),
    (6, [0, 0, 0, 0], 15),
    (8, [0, 0, 0, 0], 17),
    (9, [0, 0, 0, 0], 13),
    (5, [MOST_OF_4, MOST_OF_7, 0, 0], 12),
    (6, [0, MOST_OF_7, 0, LAST], 16),
    (8, [MOST_OF_4, LAST, MOST_OF_1, MOST_OF_4], 18),
    (9, [0, LAST, MOST_OF_1, MOST_OF_4], 14),
    (5, [MOST_OF_4 + 1, 0, 0, 0], 12),
    (5, [0, MOST_OF_7 + 1, 0, 0], 12),
    (6, [0, MOST_OF_7 + 1, 0, 0], 16),
    (8, [MOST_OF_4 + 1, 0, 0, 0], 17),
    (8, [0, 0, MOST_OF_1 + 1, 0], 17),
    (8, [0, 0, 0, MOST_OF_4 + 1], 17),
    (9, [0, 0, MOST_OF_1 + 1, 0], 13),
    (9, [0, 0, 0, MOST_OF_4 + 1], 13),
    (5, [0, 0, 1, 0], 11),
    (5, [0, 0, 0, 1], 11),
    (6, [1, 0, 0, 0], 15),
    (6, [0, 0, 1, 0], 15),
    (9, [1, 0, 0, 0], 17),
    (5, [1, 2, 0, 0], 0),
    (5, [1, 2, 0, 0], 10),
    (6, [0, 2, 0, 4], 14),
    (8, [1, 2, 3, 4], 16),
    (9, [0, 2, 3, 4], 12),
    (7, [0, 0, 0, 0], 17),
    (10, [0, 0, 0, 0], 13),
    (7, [LAST, LAST, LAST, LAST], 0),
    (255, [0, 0, 0, 0], 0),
    (5, [0, 0, 1, 0], 0),
    (8, [0, 0, 0, LAST], 16),
];

fn text_of_reads(by: By) -> String {
    let answered = RECORDS.iter().map(|(tree_type, length, bytes)| {
        let record = bytes.record(*length);
        let reading = RecordReading {
            tree_type: *tree_type,
            record: &record,
        };
        let answer = by.answer(&reading, &mut []);
        let mut row = vec![reading.tree_type.into(), *length as u64];
        row.extend(answer);
        (row, record)
    });
    text(LAYOUT_OF_READS, "RECORD_READ", answered)
}

fn text_of_writes(by: By) -> String {
    let answered = drafts().map(|draft| {
        let mut lent = [vec![BEFORE; draft.output_length]];
        let answer = by.answer(&draft, &mut lent);
        let [output] = lent;
        let mut row = vec![draft.tree_type.into()];
        row.extend(draft.values.figures());
        row.push(draft.output_length as u64);
        row.extend(answer);
        (row, output)
    });
    text(LAYOUT_OF_WRITES, "RECORD_WRITE", answered)
}

/// The arrays of the rows and of their bytes.
fn text(layout: &str, name: &str, answered: impl Iterator<Item = (Vec<u64>, Vec<u8>)>) -> String {
    let (rows, bytes): (Vec<_>, Vec<_>) = answered.unzip();
    let rows = array(&format!("{name}_ROWS"), "u64", &rows);
    let bytes = array(&format!("{name}_BYTES"), "u8", &bytes);
    format!("{layout}{rows}{bytes}")
}

fn drafts() -> impl Iterator<Item = RecordDraft> {
    DRAFTS
        .into_iter()
        .map(|(tree_type, figures, output_length)| RecordDraft {
            tree_type,
            values: RecordValues::of_figures(figures),
            output_length,
        })
}

fn reads(to: &mut Comparison, _: &mut Random) -> Held {
    RECORDS.iter().try_for_each(|(tree_type, length, bytes)| {
        let (tree_type, record) = (*tree_type, &bytes.record(*length));
        to.hold("stored", &RecordReading { tree_type, record })
    })
}

fn writes(to: &mut Comparison, _: &mut Random) -> Held {
    drafts().try_for_each(|draft| to.hold("stored", &draft))
}
