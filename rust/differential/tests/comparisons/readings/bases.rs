//! Files with a block in front.

use differential::compare::nodes::{Form, Pointer};
use differential::model::Geometry;
use differential::report::say;
use nuldrafon::{raw, WriteRequest};

const LAST: u64 = u64::MAX;
/// What the bytes of an output are before the call.
const LENT: u8 = 0xee;

/// The header, at 7, and the nodes, from 45 on, of a tree of 4 records at 40/8/8 behind a block:
/// leaves at 45 and 85, the root at 125. Each record is its key, 1 to 4.
fn site(block: usize) -> Vec<u8> {
    let (geometry, records) = (nuldrafon::Geometry::new(40, 8, 8), records());
    let request = WriteRequest::new(5, geometry, 8, 45, &records);
    let written = request.write_to_vec().expect("the tree is written");
    [vec![b'n'; block + 7], written.header, written.image].concat()
}

fn records() -> Vec<u8> {
    (1..=4_u64).flat_map(u64::to_le_bytes).collect()
}

/// The figures of the site's header, read with a base.
fn figures(base: u64) -> [u64; 8] {
    [5, 40, 8, 1, 125, 1, 4, base]
}

fn collect(file: &[u8], header: [u64; 8]) -> ([u64; 7], Vec<u8>) {
    let mut output = vec![LENT; 32];
    let answer = raw::collect_at(file, &header, 8, &mut output);
    (answer, output)
}

fn find(file: &[u8], header: [u64; 8], key: u64) -> [u64; 6] {
    raw::find_at(file, &header, 8, 0, 8, key)
}

fn look(file: &[u8], base: u64, address: u64) -> [u64; 3] {
    raw::leaf_record_at(file, base, address, 2, 8, 0, &mut [0; 8])
}

const fn refused<const N: usize>(told: [u64; 3]) -> [u64; N] {
    let mut answer = [0; N];
    (answer[0], answer[1], answer[2]) = (told[0], told[1], told[2]);
    answer
}

/// A base that is the file's length leaves a part of no bytes, which the read's own tests refuse.
#[test]
fn base_at_the_end() {
    assert_eq!(raw::parse_at(&[], 0, 0, 8, 8), refused([1, 4, 0]));
    let file = site(100);
    let end = file.len() as u64;
    assert_eq!(raw::parse_at(&file, end, 7, 8, 8), refused([1, 11, 0]));
    assert_eq!(collect(&file, figures(end)).0, refused([1, 131, 0]));
    assert_eq!(find(&file, figures(end), 1), refused([1, 131, 0]));
    assert_eq!(look(&file, end, 45), refused([1, 51, 0]));
    let empty = [5, 40, 8, 1, 125, 1, 0, end];
    assert_eq!(collect(&file, empty).0, [0; 7]);
    assert_eq!(find(&file, empty, 1), [0; 6]);
    say("bases: the file's length is one, and leaves no bytes");
}

/// Both figures of refusal 1 are those of the part; those that count from a node stay.
#[test]
fn figures_of_an_early_end() {
    let file = site(100);
    let cut = &file[..120];
    assert_eq!(raw::parse_at(cut, 100, 7, 8, 8), refused([1, 23, 20]));
    let cut = &file[..100 + 130];
    assert_eq!(collect(cut, figures(100)).0, refused([1, 131, 130]));
    assert_eq!(find(cut, figures(100), 1), refused([1, 131, 130]));
    assert_eq!(look(&file[..100 + 66], 100, 45), refused([1, 67, 66]));
    // The root's record ends 14 bytes from the root on, its pointers 32.
    let cut = &file[..100 + 125 + 13];
    assert_eq!(collect(cut, figures(100)).0, refused([1, 14, 13]));
    let cut = &file[..100 + 125 + 31];
    assert_eq!(find(cut, figures(100), 1), refused([1, 32, 31]));
    say("bases: the figures of an early end are those of the part");
}

/// The end needed is held at 2^64 - 1 without the base, and a place behind 2^64 is not the block.
#[test]
fn ends_near_the_last_number() {
    let file = site(100);
    let length = file.len() as u64 - 100;
    for (place, end) in [
        (LAST, LAST),
        (LAST - 6, LAST),
        (LAST - 50, LAST - 44),
        (LAST - 99, LAST - 93),
    ] {
        let mut header = figures(100);
        header[4] = place;
        assert_eq!(collect(&file, header).0, refused([1, end, length]));
        assert_eq!(find(&file, header, 1), refused([1, end, length]));
        assert_eq!(look(&file, 100, place), refused([1, end, length]));
    }
    let parsed = raw::parse_at(&file, 100, LAST - 92, 8, 8);
    assert_eq!(parsed, refused([1, LAST - 88, length]));
    say("bases: the end needed does not count the base, nor does a place run around to the block");
}

/// 18 comes before all else: where the tree is empty, before 8, 16 and 17, and by any sizes.
#[test]
fn beyond_the_file() {
    let file = site(100);
    for base in [
        file.len() as u64 + 1,
        1 << 32,
        (1 << 32) + 100,
        LAST - 99,
        LAST,
    ] {
        assert_eq!(raw::parse_at(&file, base, LAST, 3, 3), refused([18, 0, 0]));
        for header in [
            figures(base),
            [5, 40, 8, 1, 125, 1, 0, base],
            [5, 40, 8, 1, 125, 0, 4, base],
            [5, 40, 0, 33, LAST, 1, 4, base],
        ] {
            let due = (refused([18, 0, 0]), vec![LENT; 32]);
            assert_eq!(collect(&file, header), due);
            let found = raw::find_at(&file, &header, 3, 9, 9, 1);
            assert_eq!(found, refused([18, 0, 0]));
        }
        let looked = raw::leaf_record_at(&file, base, LAST, 2, 0, 0, &mut []);
        assert_eq!(looked, refused([18, 0, 0]));
    }
    let empty = [5, 40, 8, 0, 0, 0, 0, 1];
    assert_eq!(collect(&[], empty).0, refused([18, 0, 0]));
    assert_eq!(find(&[], empty, 1), refused([18, 0, 0]));
    say("bases: one beyond the file is refused before all else, an empty tree's too");
}

/// The base stands behind the header's other figures, and nothing else says it; in a refused read
/// there is none.
#[test]
fn carried_by_the_header() {
    let file = site(100);
    let answer = raw::parse_at(&file, 100, 7, 8, 8);
    let [number, header @ ..] = answer;
    assert_eq!((number, header), (0, figures(100)));
    let (collected, output) = collect(&file, header);
    assert_eq!(collected, [0, 0, 0, 4, 2, 1, 1]);
    assert_eq!(output, records());
    assert_eq!(raw::parse_at(&file, 100, 8, 8, 8), refused([2, 0, 0]));
    // The same header read from the file's front: its addresses count from there.
    let answer = raw::parse_at(&file, 0, 107, 8, 8);
    assert_eq!(answer[1..], figures(0));
    assert_eq!(collect(&file, figures(0)).0, refused([2, 0, 0]));
    say("bases: the header carries its base, 0 where it is refused");
}

/// A place that is found counts from the base.
#[test]
fn places_found() {
    for block in [0, 1, 100] {
        let file = site(block as usize);
        assert_eq!(find(&file, figures(block), 2), [0, 0, 0, 2, 1, 59]);
        assert_eq!(file[block as usize + 59], 2);
        assert_eq!(find(&file, figures(block), 3), [0, 0, 0, 2, 1, 131]);
        assert_eq!(find(&file, figures(block), 5), [0, 0, 0, 2, 0, 0]);
    }
    say("bases: a place that is found counts from the base");
}

/// A node in the block is not reached, and an address that counts the block leads elsewhere.
#[test]
fn nodes_in_the_block() {
    let form = Form::new(Geometry::new(40, 8, 8), 1);
    let [own, other] = [1_u64, 7].map(|key| form.leaf(&key.to_le_bytes()));
    let (block, length) = (own.len() as u64, own.len());
    let pointer = |address| Pointer {
        address,
        records: 1,
        total: 1,
    };
    // The block is a leaf of key 7; the part a leaf of key 1 and a root whose children are both.
    for (last, due) in [
        (0, [0, 0, 0, 3, 2, 1, 1]),
        (block, [2, 0, 0, 2, 1, 1, 1]),
        (
            0_u64.wrapping_sub(block),
            [1, LAST - block + 7, 0, 2, 1, 1, 1],
        ),
    ] {
        let root = form.internal(1, &3_u64.to_le_bytes(), &[pointer(0), pointer(last)]);
        let file = [&other[..], &own, &root].concat();
        let mut due = due;
        if due[0] == 1 {
            due[2] = (file.len() - length) as u64;
        }
        let header = [5, 40, 8, 1, block, 1, 3, block];
        assert_eq!(collect(&file, header).0, due, "last child at {last}");
    }
    say("bases: addresses in nodes count from the base, and none leads into the block");
}

/// A write counts no base: what its last start allows is read behind a block too.
#[test]
fn writes_count_no_base() {
    let records = records();
    let geometry = nuldrafon::Geometry::new(40, 8, 2);
    let write = |start| WriteRequest::new(5, geometry, 2, start, &records).write_to_vec();
    assert_eq!(write(65_416).map_err(|refusal| refusal.number()), Err(14));
    let written = write(65_415).expect("the last start is accepted");
    let file = [vec![0; 100 + 65_415], written.image, written.header].concat();
    let answer = raw::parse_at(&file, 100, 65_535, 2, 2);
    let [number, header @ ..] = answer;
    assert_eq!((number, header), (0, [5, 40, 8, 1, 65_495, 1, 4, 100]));
    let mut output = vec![LENT; 32];
    let collected = raw::collect_at(&file, &header, 2, &mut output);
    assert_eq!((collected, output), ([0, 0, 0, 4, 2, 1, 1], records));
    say("bases: a write counts none, and its nodes may end behind 65,535 of the file");
}
