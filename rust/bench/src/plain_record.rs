//! A plain codec of records over a table of fields, to measure by. Its calls are not compiled into
//! their callers, as C functions are not.

use Meaning::{CreationOrder, HeapId, MessageFlags, NameHash};

/// The values of a record, in the order of the C functions: name hash, heap id, message flags,
/// creation order.
pub type Values = [u64; 4];

/// What a field holds: the place of its value.
#[derive(Clone, Copy)]
enum Meaning {
    NameHash,
    HeapId,
    MessageFlags,
    CreationOrder,
}

/// The fields of a record in their order with their bytes, and the bytes of the record.
struct Layout {
    fields: &'static [(Meaning, usize)],
    length: usize,
}

impl Layout {
    const fn new(fields: &'static [(Meaning, usize)]) -> Layout {
        let (mut length, mut i) = (0, 0);
        while i < fields.len() {
            length += fields[i].1;
            i += 1;
        }
        Layout { fields, length }
    }
}

const TYPE_5: &Layout = &Layout::new(&[(NameHash, 4), (HeapId, 7)]);
const TYPE_6: &Layout = &Layout::new(&[(CreationOrder, 8), (HeapId, 7)]);
const TYPE_8: &Layout = &Layout::new(&[
    (HeapId, 8),
    (MessageFlags, 1),
    (CreationOrder, 4),
    (NameHash, 4),
]);
const TYPE_9: &Layout = &Layout::new(&[(HeapId, 8), (MessageFlags, 1), (CreationOrder, 4)]);

/// The refusals; that of a short output tells its length.
const UNKNOWN_TYPE: u64 = 19;
const MISMATCH: u64 = 20;
const OUTPUT_TOO_SHORT: u64 = 15;

/// Reads a record, and answers as the C function does: one loop for all types.
#[inline(never)]
pub fn read(tree_type: u8, record: &[u8]) -> [u64; 5] {
    match layout(tree_type) {
        Some(layout) => decode(layout, record),
        None => [UNKNOWN_TYPE, 0, 0, 0, 0],
    }
}

/// Writes a record, and answers as the C function does: one loop for all types.
#[inline(never)]
pub fn write(tree_type: u8, values: &Values, output: &mut [u8]) -> [u64; 3] {
    match layout(tree_type) {
        Some(layout) => encode(layout, values, output),
        None => [UNKNOWN_TYPE, 0, 0],
    }
}

/// As `read`, with a loop for each type, which the compiler unrolls.
#[inline(never)]
pub fn read_by_type(tree_type: u8, record: &[u8]) -> [u64; 5] {
    match tree_type {
        5 => decode(TYPE_5, record),
        6 => decode(TYPE_6, record),
        8 => decode(TYPE_8, record),
        9 => decode(TYPE_9, record),
        _ => [UNKNOWN_TYPE, 0, 0, 0, 0],
    }
}

/// As `write`, with a loop for each type.
#[inline(never)]
pub fn write_by_type(tree_type: u8, values: &Values, output: &mut [u8]) -> [u64; 3] {
    match tree_type {
        5 => encode(TYPE_5, values, output),
        6 => encode(TYPE_6, values, output),
        8 => encode(TYPE_8, values, output),
        9 => encode(TYPE_9, values, output),
        _ => [UNKNOWN_TYPE, 0, 0],
    }
}

/// The bytes of a record; none where the type is not known.
pub fn length(tree_type: u8) -> Option<usize> {
    layout(tree_type).map(|layout| layout.length)
}

fn layout(tree_type: u8) -> Option<&'static Layout> {
    match tree_type {
        5 => Some(TYPE_5),
        6 => Some(TYPE_6),
        8 => Some(TYPE_8),
        9 => Some(TYPE_9),
        _ => None,
    }
}

/// Byte by byte: with a width that is not known this is quicker than a copy into eight bytes, and
/// with one that is known the compiler makes the same of both.
#[inline(always)]
fn decode(layout: &Layout, record: &[u8]) -> [u64; 5] {
    if record.len() != layout.length {
        return [MISMATCH, 0, 0, 0, 0];
    }
    let (mut answer, mut rest) = ([0; 5], record);
    for &(meaning, width) in layout.fields {
        let (own, behind) = rest.split_at(width);
        let bytes = own.iter().rev();
        answer[1 + meaning as usize] = bytes.fold(0, |high, low| high << 8 | u64::from(*low));
        rest = behind;
    }
    answer
}

/// Byte by byte, as `decode`.
#[inline(always)]
fn encode(layout: &Layout, values: &Values, output: &mut [u8]) -> [u64; 3] {
    if !fit(layout, values) {
        return [MISMATCH, 0, 0];
    }
    let available = output.len() as u64;
    let Some(mut rest) = output.get_mut(..layout.length) else {
        return [OUTPUT_TOO_SHORT, available, 0];
    };
    for &(meaning, width) in layout.fields {
        let (own, behind) = rest.split_at_mut(width);
        let mut value = values[meaning as usize];
        for byte in own {
            *byte = value as u8;
            value >>= 8;
        }
        rest = behind;
    }
    [0, layout.length as u64, 0]
}

/// Whether each value is at most what its field holds, 0 where the type lacks it.
#[inline(always)]
fn fit(layout: &Layout, values: &Values) -> bool {
    let mut most = [0; 4];
    for &(meaning, width) in layout.fields {
        most[meaning as usize] = u64::MAX >> (64 - 8 * width);
    }
    values.iter().zip(most).all(|(value, most)| *value <= most)
}

#[cfg(test)]
mod tests {
    use differential::random::Random;
    use differential::report::say;
    use nuldrafon::raw;

    use super::*;

    #[test]
    fn records_are_read_as_by_the_c_function() {
        let bytes = Random::new(1).bytes(20);
        for tree_type in 0..=u8::MAX {
            for length in 0..=bytes.len() {
                let record = &bytes[..length];
                let answer = raw::record_read(tree_type, record);
                assert_eq!(read(tree_type, record), answer);
                assert_eq!(read_by_type(tree_type, record), answer);
            }
        }
        say("the plain codec reads records of any type and length as the C function does");
    }

    #[test]
    fn records_are_written_as_by_the_c_function() {
        let limits = [1, 4, 7].map(|width| 1 << (8 * width));
        let near = limits.into_iter().flat_map(|limit| [limit - 1, limit]);
        let all: Vec<u64> = [0, u64::MAX].into_iter().chain(near).collect();
        let places = all.len();
        for i in 0..places.pow(4) {
            let place = |power| all[i / places.pow(power) % places];
            let values = [place(0), place(1), place(2), place(3)];
            for tree_type in 4..=10 {
                for length in [0, 10, 11, 12, 13, 14, 15, 16, 17, 18] {
                    same_write(tree_type, &values, length);
                }
            }
        }
        say("the plain codec writes records up to and above every width as the C function does");
    }

    /// Holds all three to each other, with outputs of this length.
    fn same_write(tree_type: u8, values: &Values, length: usize) {
        let [mut output, mut plain, mut by_type] = [[0xa5; 18]; 3];
        let &[hash, id, flags, order] = values;
        let answer = raw::record_write(tree_type, hash, id, flags, order, &mut output[..length]);
        assert_eq!(write(tree_type, values, &mut plain[..length]), answer);
        let other = write_by_type(tree_type, values, &mut by_type[..length]);
        assert_eq!(other, answer);
        assert_eq!([plain, by_type], [output; 2]);
    }
}
