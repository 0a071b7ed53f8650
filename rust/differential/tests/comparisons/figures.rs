//! Document 01's figures to hold against, all of them.

use differential::compare::nodes::Form;
use differential::model;
use differential::report::say;
use nuldrafon::raw;

const G40: model::Geometry = model::Geometry::new(40, 8, 8);

/// The records of a write: every byte of record r is r + 1.
fn numbered(count: u64, size: u16) -> Vec<u8> {
    let records = (0..count).map(|r| vec![r as u8 + 1; size.into()]);
    records.collect::<Vec<_>>().concat()
}

/// A write of such records, with node, record, offset and length size, into two buffers.
fn write(
    count: u64,
    (ns, rs, ow, lw): (u32, u16, u8, u8),
    start: u64,
    (header, image): (&mut [u8], &mut [u8]),
) -> [u64; 5] {
    let records = numbered(count, rs);
    raw::write(5, count, rs, ns, ow, lw, start, &records, header, image)
}

#[test]
fn widths_and_tables() {
    let width = |leaf_capacity: u32| raw::node_info(10 + leaf_capacity, 1, 8, 0)[1];
    assert_eq!([0, 255, 256, 65_535, 65_536].map(width), [1, 1, 2, 2, 3]);

    let table = raw::node_info(512, 11, 8, 3);
    let (m, c) = (&table[2..], &table[2 + 33..]);
    assert_eq!(m[..5], [45, 24, 22, 22, 0]);
    assert_eq!(c[..5], [45, 1_149, 26_449, 608_349, 0]);
    assert_eq!(raw::node_info(40, 8, 8, 2)[2 + 33..][..3], [3, 7, 15]);
    say("figures: widths and tables");
}

#[test]
fn plans() {
    let plan = |ns, rs, n| raw::plan(n, rs, ns, 8);
    let refused = |number, value| [number, value, 0, 0, 0];
    assert_eq!(plan(40, 8, 3), [0, 0, 1, 1, 40]);
    assert_eq!(plan(40, 8, 4), [0, 1, 3, 2, 120]);
    assert_eq!(plan(40, 8, 8), [0, 2, 7, 4, 280]);
    assert_eq!(plan(26, 8, 2), [0, 0, 1, 1, 26]);
    assert_eq!(plan(26, 8, 3), refused(10, 1));
    assert_eq!(plan(48, 20, 1), [0, 0, 1, 1, 48]);
    assert_eq!(plan(48, 20, 2), refused(11, 0));
    assert_eq!(plan(48, 20, 3), [0, 1, 3, 2, 144]);
    assert_eq!(plan(48, 20, 4), refused(10, 2));
    assert_eq!(plan(10, 8, 0), [0, 0, 1, 1, 10]);
    assert_eq!(plan(9, 8, 0), refused(7, 9));
    assert_eq!(plan(17, 8, 1), refused(10, 0));
    let counts = |n| -> Vec<u64> {
        let nodes = model::plan(n, G40).expect("accepted").nodes(n);
        nodes.iter().map(|node| node.records).collect()
    };
    assert_eq!(counts(4), [2, 1, 1]);
    assert_eq!(counts(8), [2, 1, 1, 1, 1, 1, 1]);
    say("figures: plans");
}

/// Which records each node of an image holds, children first and the root last.
fn records_of_nodes(image: &[u8], records: &[usize]) -> Vec<Vec<u8>> {
    let nodes = image.chunks(40).zip(records);
    let numbers = |(node, &count): (&[u8], &usize)| {
        let own = node[6..6 + 8 * count].chunks(8);
        own.map(|record| record[0] - 1).collect()
    };
    nodes.map(numbers).collect()
}

#[test]
fn images() {
    let (mut header, mut image) = ([0; 38], [0; 280]);
    let buffers = (&mut header[..], &mut image[..120]);
    assert_eq!(write(4, (40, 8, 8, 8), 0, buffers), [0, 1, 3, 2, 120]);
    let nodes = records_of_nodes(&image[..120], &[2, 1, 1]);
    assert_eq!(nodes, [vec![0, 1], vec![3], vec![2]]);

    let buffers = (&mut header[..], &mut image[..]);
    assert_eq!(write(8, (40, 8, 8, 8), 0, buffers), [0, 2, 7, 4, 280]);
    let nodes = records_of_nodes(&image, &[2, 1, 1, 1, 1, 1, 1]);
    let expected = [
        vec![0, 1],
        vec![3],
        vec![2],
        vec![5],
        vec![7],
        vec![6],
        vec![4],
    ];
    assert_eq!(nodes, expected);
    say("figures: images");
}

#[test]
fn headers() {
    for (offset_size, length_size, length) in [(8, 8, 38), (2, 2, 26)] {
        let write_in = |header_length| {
            let (mut header, mut image) = (vec![0; header_length], [0; 40]);
            let sizes = (40, 8, offset_size, length_size);
            write(1, sizes, 0, (&mut header, &mut image))
        };
        assert_eq!(write_in(length), [0, 0, 1, 1, 40]);
        assert_eq!(write_in(length - 1), [15, length as u64 - 1, 0, 0, 0]);
    }
    assert_eq!(nuldrafon::jenkins_lookup3(b""), 0xdead_beef);
    say("figures: header sizes and the empty checksum");
}

#[test]
fn starts_and_counts() {
    let start = |start| {
        let buffers = (&mut [0; 26][..], &mut [0; 120][..]);
        write(4, (40, 8, 2, 2), start, buffers)
    };
    assert_eq!(start(65_415), [0, 1, 3, 2, 120]);
    assert_eq!(start(65_416), [14, 65_416, 0, 0, 0]);

    let count = |count| {
        let (header, image) = (&mut [0; 32], &mut vec![0; 3 << 16]);
        write(count, (65_536, 1, 8, 2), 0, (header, image))
    };
    assert_eq!(count(65_535), [0, 1, 3, 2, 3 << 16]);
    assert_eq!(count(65_536), [13, 65_536, 0, 0, 0]);
    say("figures: last starts and counts");
}

/// Document 01's figure for 3 bytes after the records, which document 02 turns to refused.
#[test]
fn leaf_without_its_checksum() {
    let file = Form::new(G40, 0).leaf(b"record 1record 2record 3");
    let collect = |file: &[u8], output: &mut [u8]| {
        let (root_address, root_records, total_records) = (0, 3, 3);
        raw::collect(
            file,
            5,
            40,
            8,
            0,
            root_address,
            root_records,
            total_records,
            8,
            output,
        )
    };
    let find = |file: &[u8]| raw::find(file, &[5, 40, 8, 0, 0, 3, 3], 8, 7, 1, b'2'.into());
    let look = |file: &[u8], output: &mut [u8]| raw::leaf_record(file, 0, 3, 8, 1, output);

    for (length, end) in [(33, 34), (32, 34), (31, 34), (30, 34), (29, 30), (5, 6)] {
        let (cut, length) = (&file[..length], length as u64);
        let mut output = [7; 24];
        assert_eq!(collect(cut, &mut output), [1, end, length, 0, 0, 0, 0]);
        assert_eq!(look(cut, &mut output), [1, end, length]);
        assert_eq!(output, [7; 24]);
        assert_eq!(find(cut), [1, end, length, 0, 0, 0]);
    }
    let mut output = [7; 24];
    assert_eq!(collect(&file, &mut output), [0, 0, 0, 3, 1, 0, 0]);
    assert_eq!(&output, b"record 1record 2record 3");
    assert_eq!(look(&file, &mut output), [0, 8, 0]);
    assert_eq!(&output[..8], b"record 2");
    assert_eq!(find(&file), [0, 0, 0, 1, 1, 14]);

    // The last byte of this checksum is 0: where it is missing, it is not taken for 0.
    let file = b"BTLF\0\0\xeb\x95\x91\xbd\0";
    let look = |file: &[u8]| raw::leaf_record(file, 0, 1, 1, 0, &mut [0]);
    assert_eq!(look(file), [0, 1, 0]);
    assert_eq!(look(&file[..10]), [1, 11, 10]);
    say("figures: a leaf that ends 3 bytes after its records, or fewer, is refused by 1");
}
