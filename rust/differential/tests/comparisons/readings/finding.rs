//! Finding.

use differential::compare::nodes::{Form, Pointer};
use differential::model::Geometry;
use differential::report::say;
use nuldrafon::{raw, Header, WriteRequest};

/// A file and the figures of a header.
struct Place {
    file: Vec<u8>,
    header: [u64; 7],
}

/// The nodes of a tree at 40/8/8 behind so many zeros; each record is its key.
fn written(keys: &[u64], front: usize) -> Place {
    let records: Vec<u8> = keys.iter().flat_map(|key| key.to_le_bytes()).collect();
    let geometry = nuldrafon::Geometry::new(40, 8, 8);
    let request = WriteRequest::new(5, geometry, 8, front as u64, &records);
    let written = request.write_to_vec().expect("the tree is written");
    let header = Header::parse(&written.header, 0, 8, 8).expect("its header is read");
    Place {
        file: [vec![0; front], written.image].concat(),
        header: header.figures(),
    }
}

impl Place {
    /// Finds a key that is the whole record.
    fn find(&self, key: u64) -> [u64; 6] {
        self.find_in(8, (0, 8), key)
    }

    /// Finds a key by an offset size and a field.
    fn find_in(&self, offset_size: u8, (start, width): (u64, u64), key: u64) -> [u64; 6] {
        raw::find(&self.file, &self.header, offset_size, start, width, key)
    }
}

const fn found(nodes: u64, place: u64) -> [u64; 6] {
    [0, 0, 0, nodes, 1, place]
}

const fn none(nodes: u64) -> [u64; 6] {
    [0, 0, 0, nodes, 0, 0]
}

const fn refused(number: u64, value: u64) -> [u64; 6] {
    [number, value, 0, 0, 0, 0]
}

#[test]
fn larger_key_below_cancels_nothing() {
    let place = written(&[29, 31, 30, 32], 0);
    assert_eq!(place.find(30), found(2, 86));
    assert_eq!(place.find(29), found(2, 6));
    // The keys fall, and 31 is missed: the root's 30 leads behind it.
    assert_eq!(place.find(31), none(2));
    say("finding: a larger key deeper cancels nothing");
}

#[test]
fn first_is_by_the_order_of_collecting() {
    // The nodes begin at 45, behind 7 bytes and a header of 38.
    let place = written(&[10, 11, 20, 20, 30, 40, 50, 60], 7 + 38);
    assert_eq!(place.find(20), found(3, 131));
    assert_eq!(place.file[91], 20, "the second 20 has a lower place");
    say("finding: the first record is that of collecting's order");
}

#[test]
fn first_not_below_bounds() {
    let leaf = written(&[5, 1, 7], 0);
    assert_eq!(leaf.find(4), none(1), "5 bounds, and is not 4");
    assert_eq!(leaf.find(5), found(1, 6));
    assert_eq!(leaf.find(1), none(1), "5 bounds, and is not 1");
    assert_eq!(leaf.find(7), found(1, 22));

    // The same keys above four leaves, each of which has a 4: 5 leads to the first.
    let form = Form::new(Geometry::new(100, 8, 8), 1);
    let keys =
        |keys: &[u64]| -> Vec<u8> { keys.iter().flat_map(|key| key.to_le_bytes()).collect() };
    let leaf = form.leaf(&keys(&[4]));
    let pointers = [0, 1, 2, 3].map(|i| Pointer {
        address: i * leaf.len() as u64,
        records: 1,
        total: 1,
    });
    let root_at = 4 * leaf.len() as u64;
    let root = form.internal(1, &keys(&[5, 1, 7]), &pointers);
    let place = Place {
        file: [leaf.repeat(4), root].concat(),
        header: [5, 100, 8, 1, root_at, 3, 7],
    };
    assert_eq!(place.find(4), found(2, 6));
    // No key is as large as 8: the last child is taken.
    assert_eq!(place.find(8), none(2));
    assert_eq!(place.find(7), found(2, root_at + 22));
    say("finding: the first record not below bounds, in any order of keys");
}

#[test]
fn node_without_records() {
    let form = Form::new(Geometry::new(100, 8, 8), 2);
    let leaf = form.leaf(&7_u64.to_le_bytes());
    let pointer = |address: usize, records| Pointer {
        address: address as u64,
        records,
        total: 0,
    };
    let middle = form.internal(1, &[], &[pointer(0, 1)]);
    let below = pointer(leaf.len(), 0);
    let root = form.internal(2, &9_u64.to_le_bytes(), &[below; 2]);
    let root_at = (leaf.len() + middle.len()) as u64;
    let place = Place {
        file: [leaf, middle, root].concat(),
        header: [5, 100, 8, 2, root_at, 1, 1],
    };
    assert_eq!(place.find(7), found(3, 6));
    assert_eq!(place.find(9), found(3, root_at + 6));
    say("finding: a node without records has one child, and that is taken");
}

#[test]
fn causes_in_order() {
    const DEEP: u64 = 33;
    let mut place = written(&[1, 2, 3, 4], 0);
    let whole = place.header;
    let wrong = |place: &Place| place.find_in(8, (0, 0), 1);
    place.header = [5, 40, 0, DEEP, u64::MAX, 1, 0];
    assert_eq!(wrong(&place), none(0), "N is 0");
    place.header = [5, 40, 0, DEEP, u64::MAX, 0, 4];
    assert_eq!(wrong(&place), none(0), "the root's count is 0");
    place.header = [5, 40, 0, DEEP, u64::MAX, 1, 4];
    assert_eq!(wrong(&place), refused(8, 0));
    place.header[2] = 8;
    assert_eq!(wrong(&place), refused(16, DEEP));
    place.header[3] = 1;
    assert_eq!(wrong(&place), refused(17, 0));
    assert_eq!(place.find(1), [1, u64::MAX, 120, 0, 0, 0]);

    place.header = whole;
    for (start, width) in [(0, 9), (1, 8), (8, 1), (u64::MAX, 1), (u64::MAX - 7, 8)] {
        assert_eq!(place.find_in(8, (start, width), 1), refused(17, 0));
    }
    assert_eq!(place.find_in(8, (7, 1), 0), found(2, 6));
    say("finding: no records, then 8, 16, 17, then the nodes");
}

#[test]
fn offset_sizes() {
    let leaf = written(&[1, 2, 3], 0);
    let tree = written(&[1, 2, 3, 4], 0);
    for size in [0, 1, 3, 7, 9, 255] {
        assert_eq!(leaf.find_in(size, (0, 8), 2), found(1, 14), "size {size}");
    }
    for size in [0, 1, 3] {
        let answer = tree.find_in(size, (0, 8), 2);
        assert_eq!(answer, refused(4, size.into()), "size {size}");
    }
    say("finding: the offset size is tested in an internal node alone");
}

#[test]
fn keys_and_figures_above_their_fields() {
    let place = written(&[1, 2, 3, 4], 0);
    assert_eq!(place.find_in(8, (0, 1), 2), found(2, 14));
    assert_eq!(place.find_in(8, (0, 1), 256 + 2), none(2));

    let mut above = written(&[1, 2, 3, 4], 0);
    for (figure, bits) in [(0, 8), (1, 32), (2, 16), (3, 16), (5, 16)] {
        above.header[figure] += 1 << bits;
        assert_eq!(above.find(2), found(2, 14), "figure {figure}");
    }
    say("finding: a key above its field is not found; a figure above its field is cut");
}

#[test]
fn refused_below_a_match() {
    let mut place = written(&[1, 2, 3, 4], 0);
    assert_eq!(place.find(3), found(2, 86));
    place.file[0] ^= 1;
    assert_eq!(place.find(3), [2, 0, 0, 1, 0, 0], "the left leaf");
    assert_eq!(place.find(4), found(2, 46), "it is not on this descent");
    say("finding: a refused find has no place; nodes off the descent are not looked at");
}
