//! Records by their meaning.

use differential::report::say;
use nuldrafon::{jenkins_lookup3, raw, Header, RecordValues, WriteRequest};

const LAST: u64 = u64::MAX;
/// What the bytes of an output are before the call.
const LENT: u8 = 0xee;

/// Tree types, records and the values of these: name hash, heap id, message flags, creation order.
const RECORDS: [(u8, &[u8], [u64; 4]); 4] = [
    (
        5,
        b"\x04\x03\x02\x01\x17\x16\x15\x14\x13\x12\x11",
        [0x0102_0304, 0x0011_1213_1415_1617, 0, 0],
    ),
    (
        6,
        b"\x38\x37\x36\x35\x34\x33\x32\x31\x17\x16\x15\x14\x13\x12\x11",
        [0, 0x0011_1213_1415_1617, 0, 0x3132_3334_3536_3738],
    ),
    (
        8,
        b"\x18\x17\x16\x15\x14\x13\x12\x11\x21\x34\x33\x32\x31\x04\x03\x02\x01",
        [0x0102_0304, 0x1112_1314_1516_1718, 0x21, 0x3132_3334],
    ),
    (
        9,
        b"\x18\x17\x16\x15\x14\x13\x12\x11\x21\x34\x33\x32\x31",
        [0, 0x1112_1314_1516_1718, 0x21, 0x3132_3334],
    ),
];

/// The widths of name hash, heap id, message flags and creation order.
const WIDTHS: [(u8, [u32; 4]); 4] = [
    (5, [4, 7, 0, 0]),
    (6, [0, 7, 0, 8]),
    (8, [4, 8, 1, 4]),
    (9, [0, 8, 1, 4]),
];

/// Writes into an output of this length.
fn write(tree_type: u8, values: [u64; 4], length: usize) -> ([u64; 3], Vec<u8>) {
    let mut output = vec![LENT; length];
    let [hash, id, flags, order] = values;
    let answer = raw::record_write(tree_type, hash, id, flags, order, &mut output);
    (answer, output)
}

/// A refused write of this number and value, and an output of this length that it left.
fn refused(number: u64, value: u64, length: usize) -> ([u64; 3], Vec<u8>) {
    ([number, value, 0], vec![LENT; length])
}

/// The fields stand in the order in which document 02 lists them for each type, whatever the order
/// of the values; reading and writing are inverse.
#[test]
fn fields_in_the_order_of_the_record() {
    for (tree_type, record, values) in RECORDS {
        let [hash, id, flags, order] = values;
        let read = raw::record_read(tree_type, record);
        assert_eq!(read, [0, hash, id, flags, order], "type {tree_type}");
        let written = write(tree_type, values, record.len());
        let answer = [0, record.len() as u64, 0];
        assert_eq!(written, (answer, record.to_vec()), "type {tree_type}");
    }
    say("records: fields in the order of the record, both ways");
}

/// The record stands at the output's front, and its length is the answer, however long the output.
#[test]
fn longer_outputs() {
    for (tree_type, record, values) in RECORDS {
        for more in [1, 7, 300] {
            let written = write(tree_type, values, record.len() + more);
            let output = [record, &vec![LENT; more]].concat();
            assert_eq!(written, ([0, record.len() as u64, 0], output));
        }
    }
    say("records: bytes behind the record stay");
}

/// A record has exactly the type's length: in a longer one nothing is ignored, zeros neither.
#[test]
fn lengths() {
    for (tree_type, record, _) in RECORDS {
        let longer = [record, &[0; 30]].concat();
        for length in (0..=longer.len()).filter(|&length| length != record.len()) {
            let read = raw::record_read(tree_type, &longer[..length]);
            assert_eq!(read, [20, 0, 0, 0, 0], "type {tree_type}, {length} bytes");
        }
    }
    // Type 8 is type 9 with a hash behind; neither is read as the other.
    let [.., (_, by_name, _), (_, by_order, _)] = RECORDS;
    assert_eq!(raw::record_read(9, by_name), [20, 0, 0, 0, 0]);
    assert_eq!(raw::record_read(8, by_order), [20, 0, 0, 0, 0]);
    say("records: another length than the type's is refused by 20");
}

/// Types outside the four are refused by 19 at any length, 7 too, though HDF5 has records of it.
#[test]
fn other_types() {
    let known = |tree_type: &u8| matches!(tree_type, 5 | 6 | 8 | 9);
    for tree_type in (0..=u8::MAX).filter(|tree_type| !known(tree_type)) {
        for length in 0..=40 {
            let read = raw::record_read(tree_type, &vec![1; length]);
            assert_eq!(read, [19, 0, 0, 0, 0], "type {tree_type}, {length} bytes");
            for values in [[0; 4], [1, 2, 3, 4], [LAST; 4]] {
                let written = write(tree_type, values, length);
                assert_eq!(written, refused(19, 0, length), "type {tree_type}");
            }
        }
    }
    say("records: other types are refused by 19, before all else");
}

/// A field holds its largest number, and no larger one; where the type lacks it, 0 alone.
#[test]
fn limits_of_fields() {
    for (tree_type, widths) in WIDTHS {
        let length = widths.iter().sum::<u32>() as usize;
        for (field, width) in widths.into_iter().enumerate() {
            let mut values = [0; 4];
            let above = 256_u128.pow(width);
            values[field] = (above - 1) as u64;
            let (answer, record) = write(tree_type, values, length);
            assert_eq!(answer, [0, length as u64, 0], "type {tree_type}: {field}");
            assert_eq!(raw::record_read(tree_type, &record)[1..], values);
            if let Ok(above) = u64::try_from(above) {
                for value in [above, above + 1, LAST] {
                    values[field] = value;
                    let written = write(tree_type, values, length);
                    assert_eq!(written, refused(20, 0, length), "type {tree_type}: {field}");
                }
            }
        }
    }
    say("records: each field takes its largest number and refuses the next by 20");
}

/// 19, then 20, then 15 with the output's length; none of them changes the output.
#[test]
fn causes_in_order() {
    assert_eq!(write(7, [LAST; 4], 0), refused(19, 0, 0));
    assert_eq!(write(5, [0, 0, 1, 0], 0), refused(20, 0, 0));
    for (tree_type, record, values) in RECORDS {
        for length in 0..record.len() {
            let due = refused(15, length as u64, length);
            assert_eq!(write(tree_type, values, length), due, "type {tree_type}");
            let too_large = [LAST, values[1], LAST, values[3]];
            let written = write(tree_type, too_large, length);
            assert_eq!(written, refused(20, 0, length), "type {tree_type}");
        }
    }
    say("records: 19, then 20, then 15; a refused write changes nothing");
}

/// The name hash of a link is lookup3 of its name, and a tree's records are read by its type.
#[test]
fn of_a_tree() {
    let links = ["deck 1", "deck 2", "lift"].map(|name| RecordValues {
        name_hash: jenkins_lookup3(name.as_bytes()).into(),
        heap_id: name.len() as u64,
        ..RecordValues::default()
    });
    let records = links.map(|link| link.write_to_vec(5).expect("a link is written"));
    let records = records.concat();
    let geometry = nuldrafon::Geometry::new(512, 11, 8);
    let request = WriteRequest::new(5, geometry, 8, 38, &records);
    let written = request.write_to_vec().expect("the tree is written");
    let file = [written.header, written.image].concat();
    let header = Header::parse(&file, 0, 8, 8).expect("its header is read");
    let collected = header.collect_to_vec(&file).expect("it is collected");
    let read = collected.records.chunks(header.geometry.record_size.into());
    let read = read.map(|record| RecordValues::read(header.tree_type, record));
    assert!(read.eq(links.map(Ok)));
    say("records: those of a tree are read by its type");
}
