//! Small writes of the C function, watched after each instruction.

use differential::compare::grid;
use differential::model::{self, Geometry};
use differential::moments::{self, Seen, NOT_WATCHED};
use differential::random::Random;
use differential::report::say;

use super::drafted;

/// A geometry, a record count, and the depth that they come to.
type Tree = (Geometry, u64, u64);

const fn tree(node_size: u32, record_size: u16, offset_size: u8, count: u64, depth: u64) -> Tree {
    let geometry = Geometry::new(node_size, record_size, offset_size);
    (geometry, count, depth)
}

const TREES: [Tree; 31] = [
    // Empty, with and without zeros, few and many bytes of records and of zeros.
    tree(10, 1, 2, 0, 0),
    tree(40, 8, 8, 0, 0),
    tree(40, 8, 8, 3, 0),
    tree(34, 8, 8, 3, 0),
    tree(26, 5, 4, 3, 0),
    tree(11, 1, 2, 1, 0),
    tree(300, 1, 4, 290, 0),
    tree(300, 1, 4, 33, 0),
    tree(512, 33, 8, 10, 0),
    tree(1_024, 17, 8, 3, 0),
    tree(2_000, 300, 2, 6, 0),
    // The root with and without zeros, records shorter and longer than a vector.
    tree(40, 8, 8, 4, 1),
    tree(36, 8, 8, 4, 1),
    tree(40, 8, 2, 5, 1),
    tree(48, 20, 8, 3, 1),
    tree(64, 5, 2, 30, 1),
    tree(100, 3, 4, 57, 1),
    tree(130, 40, 8, 5, 1),
    tree(250, 67, 4, 4, 1),
    tree(300, 16, 8, 40, 1),
    tree(280, 1, 8, 500, 1),
    tree(64, 1, 8, 200, 1),
    tree(60, 7, 8, 20, 1),
    tree(90, 12, 2, 30, 1),
    // Totals of one byte and of two.
    tree(40, 8, 4, 8, 2),
    tree(40, 8, 8, 15, 2),
    tree(38, 8, 8, 8, 2),
    tree(70, 5, 2, 110, 2),
    tree(60, 1, 2, 612, 2),
    tree(82, 32, 8, 7, 2),
    tree(40, 8, 8, 16, 3),
];

/// Leaves without records and with more and more zeros, and trees with longer and longer records.
fn sweeps() -> impl Iterator<Item = Tree> {
    let zeros = (0..=70).step_by(3);
    let leaves = zeros.map(|zeros| tree(10 + zeros, 1, 8, 0, 0));
    let sizes = grid::FIELD_SIZES.into_iter().cycle();
    let records = (1..=40).zip(sizes).map(|(record_size, offset_size)| {
        let bytes = u32::from(record_size);
        let two_pointers = 2 * (u32::from(offset_size) + 1);
        let space = (3 * bytes).max(bytes + two_pointers) + bytes % 5;
        let count = u64::from(space / bytes) + 1;
        tree(10 + space, record_size, offset_size, count, 1)
    });
    leaves.chain(records)
}

/// Watches a write; says whether it could.
fn hold(tree: Tree, random: &mut Random, seen: &mut Seen) -> bool {
    let (geometry, record_count, depth) = tree;
    let mut records = Vec::new();
    let draft = drafted(geometry, record_count, &mut records, random);
    let nodes = model::fields_of_nodes(&draft.given).expect("the model writes it");
    let mut answer = [0; 5];
    let write = |image: &mut [u8]| answer = draft.write_to(&mut [0; 38], image);
    let held = moments::hold(&nodes, write, seen);
    assert_eq!(answer[..2], [0, depth], "{draft}");
    if let Some(Err(fault)) = &held {
        panic!("{draft}: {fault}");
    }
    held.is_some()
}

#[test]
fn of_the_c_function() {
    let random = &mut Random::new(4);
    let mut seen = Seen::default();
    for tree in sweeps().chain(TREES) {
        if !hold(tree, random, &mut seen) {
            say(&format!("moments of writes: {NOT_WATCHED}"));
            return;
        }
    }
    say(&format!("moments of writes: {seen}"));
}
