//! Where the Rust goes on and an added refusal stops the port: one input for each.

use std::panic::{catch_unwind, AssertUnwindSafe};

use differential::calls::typed;
use differential::compare::rust;
use differential::inputs::{Leaf, Tree, Writing};
use differential::model::Geometry;
use differential::report::with_rust;
use nuldrafon::{Header, LeafView, Refusal};

/// A write of zeros.
fn zeros(records: &[u8], record_count: u64, geometry: Geometry) -> Writing<'_> {
    Writing {
        tree_type: 5,
        record_count,
        geometry,
        length_size: 2,
        start: 0,
        records,
    }
}

/// The number and the first value of the refusal of a write into long buffers.
fn refused(given: &Writing) -> (u64, u64) {
    let written = typed::request(given).write(&mut [0; 38], &mut vec![0; 1 << 20]);
    let refusal = written.expect_err("the write is refused");
    (refusal.number(), refusal.values()[0])
}

/// What the Rust writes.
fn write(given: &Writing) -> (Vec<u8>, Vec<u8>) {
    rust::serialize(given).expect("the Rust has a plan")
}

#[test]
fn writes() {
    with_rust("the Rust writes on where 4, 7 and 13 refuse", || {
        let records = [0; 65_536];
        let given = zeros(&records, 65_536, Geometry::new(512, 1, 8));
        assert_eq!(refused(&given), (13, 65_536));
        assert_eq!(write(&given).0[26..28], [0, 0], "its count is cut");

        let given = zeros(&records, 65_536, Geometry::new(65_546, 1, 8));
        assert_eq!(refused(&given), (7, 65_546));
        assert_eq!(write(&given).0[24..26], [0, 0], "its root's count is cut");

        let given = zeros(&[], 0, Geometry::new(9, 8, 8));
        assert_eq!(refused(&given), (7, 9));
        assert_eq!(write(&given).1.len(), 9, "its checksum is cut");

        let given = zeros(&records[..32], 4, Geometry::new(40, 8, 3));
        assert_eq!(refused(&given), (4, 3));
        assert_eq!(write(&given).0.len(), 27, "an address has 3 bytes");
    });
}

#[test]
fn starts_and_record_buffers() {
    with_rust("the Rust writes on where 12 and 14 refuse", || {
        let records = [0; 33];
        let mut given = zeros(&records[..32], 4, Geometry::new(40, 8, 2));
        for (start, root) in [(65_416, 65_496_u16), (65_455, 65_535), (65_456, 0)] {
            given.start = start;
            assert_eq!(refused(&given), (14, start));
            assert_eq!(write(&given).0[16..18], root.to_le_bytes());
        }

        given.start = 0;
        given.records = &records;
        assert_eq!(refused(&given), (12, 33));
        assert_eq!(write(&given).1.len(), 120);
        given.records = &records[..31];
        assert_eq!(refused(&given), (12, 31));
        assert!(catch_unwind(AssertUnwindSafe(|| write(&given))).is_err());
    });
}

#[test]
fn plans() {
    with_rust("the Rust plans on where 4, 7, 8 and 9 refuse", || {
        let most = 16_777_215;
        for (number, count, geometry) in [
            (4, 4, Geometry::new(40, 8, 3)),
            (7, 0, Geometry::new(9, 8, 8)),
            (7, 65_536, Geometry::new(65_546, 1, 8)),
            (8, 0, Geometry::new(40, 0, 8)),
            (9, most + 1, Geometry::new(65_536, 24, 8)),
        ] {
            let planned = typed::geometry(geometry).plan(count);
            assert_eq!(planned.map_err(|refusal| refusal.number()), Err(number));
            assert!(
                rust::plan(count, geometry).is_some(),
                "{count} at {geometry}"
            );
        }
    });
}

/// A leaf without records.
fn empty_leaf() -> Vec<u8> {
    let empty = zeros(&[], 0, Geometry::new(40, 8, 8));
    let written = typed::request(&empty).write_to_vec();
    written.expect("an empty tree is written").image
}

#[test]
fn collecting() {
    with_rust("the Rust collects on where 8 and 16 refuse", || {
        let mut tree = Tree {
            tree_type: 5,
            geometry: Geometry::new(40, 0, 8),
            depth: 0,
            root_address: 0,
            root_records: 3,
            total_records: 3,
            base: 0,
        };
        let leaf = empty_leaf();
        let refused = |tree: &Tree| {
            let collected = typed::header(tree).collect(&leaf, &mut []);
            collected.expect_err("the tree is refused").refusal
        };
        assert_eq!(refused(&tree), Refusal::ZeroRecordSize);
        assert_eq!(rust::collect_apart(&leaf, &tree), Ok(vec![vec![]; 3]));

        tree.geometry.record_size = 8;
        tree.depth = 33;
        assert_eq!(refused(&tree), Refusal::DepthAboveLimit(33));
        assert_eq!(rust::collect(&leaf, &tree), Err([2, 0, 0]));
    });
}

/// A leaf whose file ends within its checksum: the Rust reads it unchecked.
#[test]
fn leaf_without_its_checksum() {
    with_rust(
        "the Rust reads a leaf without its checksum, where 1 refuses",
        || {
            let records = *b"record 1record 2record 3";
            let given = zeros(&records, 3, Geometry::new(40, 8, 8));
            let file = typed::request(&given).write_to_vec();
            let mut file = file.expect("a leaf is written").image;
            file[31] ^= 1;
            let tree = Tree {
                tree_type: 5,
                geometry: given.geometry,
                depth: 0,
                root_address: 0,
                root_records: 3,
                total_records: 3,
                base: 0,
            };
            let leaf = Leaf {
                base: 0,
                address: 0,
                count: 3,
                record_size: 8,
            };
            let each: Vec<Vec<u8>> = records.chunks(8).map(<[u8]>::to_vec).collect();
            for length in 30..34 {
                let cut = &file[..length];
                let early = Refusal::UnexpectedEof {
                    expected: 34,
                    available: length as u64,
                };
                let refused = typed::header(&tree).collect(cut, &mut [0; 24]);
                assert_eq!(refused.expect_err("the leaf is refused").refusal, early);
                assert_eq!(rust::collect(cut, &tree), Ok(records.to_vec()));
                assert_eq!(LeafView::new(cut, 0, 3, 8), Err(early));
                assert_eq!(rust::leaf(cut, &leaf), Ok(each.clone()));
            }
            let whole = rust::collect(&file[..34], &tree);
            assert_eq!(whole.map_err(|refusal| refusal[0]), Err(6));
        },
    );
}

/// A base beyond the file leaves no part to hand to the Rust, which has none: of the whole file it
/// says where that ends, and of an empty tree it reads nothing.
#[test]
fn bases() {
    with_rust("the Rust has no base, and goes on where 18 refuses", || {
        let file = empty_leaf();
        let beyond = file.len() as u64 + 1;
        let parsed = Header::parse_at(&file, beyond, 0, 8, 8);
        assert_eq!(parsed, Err(Refusal::BaseBeyondFile));
        let theirs = rust::parse(&file, beyond, 8, 8);
        assert_eq!(theirs, [1, beyond + 4, beyond - 1, 0, 0, 0, 0, 0]);

        let tree = Tree {
            tree_type: 5,
            geometry: Geometry::new(40, 8, 8),
            depth: 0,
            root_address: 0,
            root_records: 0,
            total_records: 0,
            base: beyond,
        };
        let refused = typed::header(&tree).collect(&file, &mut []);
        let refused = refused.expect_err("the base is refused").refusal;
        assert_eq!(refused, Refusal::BaseBeyondFile);
        assert_eq!(rust::collect(&[], &tree), Ok(vec![]));
    });
}

#[test]
fn looks_at_a_leaf() {
    with_rust("the Rust reads a leaf on where 8 refuses", || {
        let file = empty_leaf();
        let leaf = Leaf {
            base: 0,
            address: 0,
            count: 3,
            record_size: 0,
        };
        let view = LeafView::new(&file, 0, 3, 0);
        assert_eq!(view, Err(Refusal::ZeroRecordSize));
        assert_eq!(rust::leaf(&file, &leaf), Ok(vec![vec![]; 3]));
    });
}
