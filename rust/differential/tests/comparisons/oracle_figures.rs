//! The oracle itself: known figures, a round trip, and each refusal with its number and values.

use differential::random::Random;
use differential::report::with_rust;
use oracle::{Header, Planned, Refusal};

#[test]
fn tables() {
    with_rust("the oracle gives the known capacity tables", || {
        let table = oracle::node_info(512, 11, 8, 3);
        assert_eq!(table.w, 1);
        assert_eq!(table.m, [45, 24, 22, 22]);
        assert_eq!(table.c, [45, 1149, 26449, 608349]);
        assert_eq!(table.t, [0, 2, 2, 3]);
        assert_eq!(oracle::node_info(40, 8, 8, 2).c, [3, 7, 15]);
        let width = |leaf_capacity: u32| oracle::node_info(10 + leaf_capacity, 1, 8, 0).w;
        assert_eq!([0, 255, 256, 65535, 65536].map(width), [1, 1, 2, 2, 3]);
    });
}

#[test]
fn plans() {
    with_rust("the oracle gives the known plans", || {
        let planned = |depth, nodes, leaves, image_size| {
            Some(Planned {
                depth,
                nodes,
                leaves,
                image_size,
            })
        };
        assert_eq!(oracle::plan(3, 8, 40, 8), planned(0, 1, 1, 40));
        assert_eq!(oracle::plan(4, 8, 40, 8), planned(1, 3, 2, 120));
        assert_eq!(oracle::plan(8, 8, 40, 8), planned(2, 7, 4, 280));
        assert_eq!(oracle::plan(0, 8, 10, 8), planned(0, 1, 1, 10));
        let accepted =
            |node_size, record_size, n| oracle::plan(n, record_size, node_size, 8).is_some();
        assert_eq!([2, 3].map(|n| accepted(26, 8, n)), [true, false]);
        let thin = [1, 2, 3, 4].map(|n| accepted(48, 20, n));
        assert_eq!(thin, [true, false, true, false]);
    });
}

/// A file with the header at 7 and the nodes after it, its records and its header's answer.
fn sample() -> (Vec<u8>, Vec<u8>, Header) {
    let records = Random::new(5).bytes(8 * 8);
    let (header, image) =
        oracle::serialize(9, 8, 8, 40, 8, 8, 45, &records).expect("8 records of 8 bytes fit");
    assert_eq!((header.len(), image.len()), (38, 280));
    let file = [&[0xaa; 7], &header[..], &image].concat();
    let answer = Header {
        tree_type: 9,
        node_size: 40,
        record_size: 8,
        depth: 2,
        root_address: 45 + 6 * 40,
        root_records: 1,
        total_records: 8,
    };
    (file, records, answer)
}

#[test]
fn round_trip() {
    with_rust("the oracle reads back what it wrote", || {
        let (file, records, answer) = sample();
        let header = oracle::parse(&file, 7, 8, 8).expect("its own header is accepted");
        assert_eq!(header, answer);
        let collected = oracle::collect(&file, &header, 8, 8).expect("its own tree is accepted");
        assert_eq!(collected.concat(), records);
        let leaf = oracle::leaf(&file, 45, 2, 8).expect("its own leaf is accepted");
        assert_eq!(leaf, [&records[..8], &records[8..16]]);
    });
}

#[test]
fn refusals() {
    with_rust("the oracle refuses by number and values, 1 to 6", || {
        let (file, _, header) = sample();
        let refused = |number, values| Refusal { number, values };
        let damaged = |at: usize| {
            let mut copy = file.clone();
            copy[at] ^= 1;
            copy
        };
        let parsed = |file: &[u8], ow, lw| oracle::parse(file, 7, ow, lw).expect_err("refused");
        assert_eq!(parsed(&file[..44], 8, 8), refused(1, [45, 44]));
        assert_eq!(parsed(&damaged(7), 8, 8), refused(2, [0, 0]));
        assert_eq!(parsed(&damaged(11), 8, 8), refused(3, [1, 0]));
        assert_eq!(parsed(&file, 3, 8), refused(4, [3, 0]));
        assert_eq!(parsed(&file, 8, 3), refused(5, [3, 0]));
        let stored = u32::from_le_bytes([file[41], file[42], file[43], file[44]]);
        let computed = oracle::jenkins_lookup3(&file[7..41]);
        let sums = [u64::from(stored ^ 1), u64::from(computed)];
        assert_eq!(parsed(&damaged(41), 8, 8), refused(6, sums));

        let collected = |file: &[u8]| oracle::collect(file, &header, 8, 8).expect_err("refused");
        assert_eq!(collected(&file[..290]), refused(1, [291, 290]));
        assert_eq!(collected(&file[..300]), refused(1, [34, 15]));
        assert_eq!(collected(&damaged(45)), refused(2, [0, 0]));
        assert_eq!(collected(&damaged(51)).number, 6);

        let read = |file: &[u8], address| oracle::leaf(file, address, 2, 8).expect_err("refused");
        assert_eq!(read(&file[..50], 45), refused(1, [51, 50]));
        assert_eq!(read(&file[..66], 45), refused(1, [67, 66]));
        assert_eq!(read(&file, u64::MAX).values[0], u64::MAX);
        assert_eq!(read(&damaged(45), 45), refused(2, [0, 0]));
        assert_eq!(read(&damaged(51), 45).number, 6);
    });
}
