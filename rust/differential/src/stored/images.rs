//! The stored list of headers and node images.

use super::{array, hold_text, List};
use crate::calls::write::Draft;
use crate::calls::{By, Case as _};
use crate::compare::{Comparison, Held};
use crate::inputs::Writing;
use crate::model::Geometry;
use crate::random::Random;

pub const LIST: List = List {
    name: "images",
    stored: include_str!("../../stored/images.txt"),
    text,
    family,
};

const LAYOUT: &str = "\
// Writes: rows of tree type, record count, record size, node size, offset size, length size, start,
// length of the header buffer, length of the image buffer, and the five numbers of the answer.
// Byte i of the records is (7 * i + 13 * record count + 1) mod 256; every byte of the buffers is
// 238 before the write. IMAGE_BYTES holds for each row the header buffer and then the image buffer
// as the write leaves them.
";

/// What every byte of a buffer is before the call.
pub const BEFORE: u8 = 238;

/// An input, and how many bytes more (or fewer) than needed the header and image buffers have.
struct Case {
    geometry: Geometry,
    record_count: u64,
    length_size: u8,
    start: u64,
    more: [isize; 2],
}

const CASES: [Case; 20] = [
    case(40, 8, 8, 8, 0, 0, [0, 0]),
    case(10, 1, 2, 2, 0, 65_525, [2, 2]),
    case(40, 8, 8, 8, 3, 1_000, [0, 0]),
    case(40, 8, 8, 8, 4, 4_096, [0, 0]),
    case(40, 8, 2, 2, 4, 65_415, [1, 5]),
    case(40, 8, 2, 2, 4, 65_416, [0, 0]),
    case(40, 8, 4, 2, 8, 7, [0, 0]),
    case(48, 20, 8, 4, 3, u64::MAX - 144, [0, 0]),
    case(48, 20, 8, 4, 2, 0, [0, 0]),
    case(26, 8, 8, 8, 3, 0, [0, 0]),
    case(64, 5, 2, 8, 30, 2, [0, 0]),
    case(300, 1, 4, 4, 290, 77, [0, 0]),
    case(40, 8, 4, 4, 4, 0, [-1, 0]),
    case(40, 8, 4, 4, 4, 0, [0, -1]),
    case(40, 8, 4, 4, 4, 0, [-1, -1]),
    case(40, 8, 3, 4, 4, 0, [0, 0]),
    case(40, 8, 4, 3, 4, 0, [0, 0]),
    case(9, 8, 4, 4, 0, 0, [0, 0]),
    case(40, 0, 4, 4, 4, 0, [0, 0]),
    case(280, 1, 8, 8, 500, 100, [0, 0]),
];

const fn case(
    node_size: u32,
    record_size: u16,
    offset_size: u8,
    length_size: u8,
    record_count: u64,
    start: u64,
    more: [isize; 2],
) -> Case {
    Case {
        geometry: Geometry::new(node_size, record_size, offset_size),
        record_count,
        length_size,
        start,
        more,
    }
}

impl Case {
    fn records(&self) -> Vec<u8> {
        let length = self.record_count * u64::from(self.geometry.record_size);
        let byte = |i: u64| (7 * i + 13 * self.record_count + 1) as u8;
        (0..length).map(byte).collect()
    }

    fn draft<'a>(&self, number: usize, records: &'a [u8]) -> Draft<'a> {
        let mut draft = Draft::exact(Writing {
            tree_type: number as u8 + 1,
            record_count: self.record_count,
            geometry: self.geometry,
            length_size: self.length_size,
            start: self.start,
            records,
        });
        draft.header_length = draft.header_length.saturating_add_signed(self.more[0]);
        draft.image_length = draft.image_length.saturating_add_signed(self.more[1]);
        draft
    }
}

fn text(by: By) -> String {
    text_of(|draft| {
        let mut lent = filled(draft, BEFORE);
        (by.answer(draft, &mut lent), lent)
    })
}

/// Holds what someone writes to the stored list, where every byte of the buffers is another one
/// before the write. Bytes behind header and image have to be that one after it.
pub fn hold_lent(by: By, before: u8) -> Held {
    let text = text_of(|draft| {
        let mut lent = filled(draft, before);
        let answer = by.answer(draft, &mut lent);
        for (buffer, written) in lent.iter_mut().zip(draft.written(&answer)) {
            // What was lent comes to what the list has there.
            for byte in &mut buffer[written..] {
                *byte ^= before ^ BEFORE;
            }
        }
        (answer, lent)
    });
    hold_text(&text, LIST.stored)
}

/// The buffers of a write, every byte the same.
fn filled(draft: &Draft, byte: u8) -> [Vec<u8>; 2] {
    [draft.header_length, draft.image_length].map(|length| vec![byte; length])
}

/// The list, from what a write answers and leaves in its buffers.
fn text_of(write: impl Fn(&Draft) -> ([u64; 5], [Vec<u8>; 2])) -> String {
    let mut rows: Vec<Vec<u64>> = Vec::new();
    let mut bytes: Vec<Vec<u8>> = Vec::new();
    for (number, case) in CASES.iter().enumerate() {
        let records = case.records();
        let draft = case.draft(number, &records);
        let (answer, lent) = write(&draft);
        let mut row = vec![
            draft.given.tree_type.into(),
            case.record_count,
            case.geometry.record_size.into(),
            case.geometry.node_size.into(),
            case.geometry.offset_size.into(),
            case.length_size.into(),
            case.start,
            draft.header_length as u64,
            draft.image_length as u64,
        ];
        row.extend(answer);
        rows.push(row);
        bytes.extend(lent);
    }
    let rows = array("IMAGE_ROWS", "u64", &rows);
    format!("{LAYOUT}{rows}{}", array("IMAGE_BYTES", "u8", &bytes))
}

fn family(to: &mut Comparison, _: &mut Random) -> Held {
    for (number, case) in CASES.iter().enumerate() {
        to.hold("stored", &case.draft(number, &case.records()))?;
    }
    Ok(())
}
