//! Files made to keep a reader busy or to end its stack: each collecting and each find ends soon.

use std::thread;
use std::time::{Duration, Instant};

use differential::calls::collect::Collecting;
use differential::calls::find::{Finding, Search};
use differential::calls::{typed, Case};
use differential::compare::nodes::{Form, Pointer};
use differential::inputs::{Field, Tree};
use differential::model::{Geometry, LEVEL_LIMIT};
use differential::report::say;
use nuldrafon::Refusal;

/// The stack that a collecting or a find gets.
const STACK: usize = 192 << 10;
const SOON: Duration = Duration::from_secs(10);
/// The most records of a node, for which a count has two bytes.
const MOST: usize = 65_535;
const WIDE: Geometry = Geometry::new(65_545, 1, 8);
/// The bytes of a block in front of a file.
const BLOCK: usize = 1_000;

/// A file with one node of each level, and its root.
struct Tower {
    file: Vec<u8>,
    address: u64,
    records: usize,
}

/// Node after node from the leaf up to level 32: each has as many records as is said for its level,
/// and all its pointers lead to the node below it.
fn tower(records: impl Fn(u16) -> usize) -> Tower {
    let form = Form::new(WIDE, LEVEL_LIMIT);
    let mut file = Vec::new();
    let mut below = Pointer {
        address: 0,
        records: 0,
        total: 0,
    };
    for level in 0..=LEVEL_LIMIT {
        let own = vec![level as u8; records(level)];
        let node = match level {
            0 => form.leaf(&own),
            _ => form.internal(level, &own, &vec![below; own.len() + 1]),
        };
        below.address = file.len() as u64;
        below.records = own.len() as u64;
        file.extend(node);
    }
    Tower {
        file,
        address: below.address,
        records: below.records as usize,
    }
}

fn header(address: u64, records: usize, depth: u16) -> Tree {
    Tree {
        tree_type: 5,
        geometry: WIDE,
        depth,
        root_address: address,
        root_records: records as u16,
        total_records: u64::MAX,
        base: 0,
    }
}

/// Runs on a small stack; gives how long it took, too.
fn soon<A: Send>(name: &str, run: impl FnOnce() -> A + Send) -> (A, Duration) {
    let begin = Instant::now();
    let answer = thread::scope(|scope| {
        let thread = thread::Builder::new().stack_size(STACK);
        let thread = thread.spawn_scoped(scope, run).expect("a thread starts");
        thread.join().expect("the call ends")
    });
    let taken = begin.elapsed();
    assert!(taken < SOON, "{name} took {taken:?}");
    (answer, taken)
}

/// Collects on a small stack, says what was read, and holds the nodes to 33 for each record and 33.
fn collect(name: &str, file: &[u8], tree: &Tree, output_length: usize) -> [u64; 7] {
    let case = Collecting::of(file, tree, output_length, 0);
    let mut lent = [vec![0; output_length]];
    let (answer, taken) = soon(name, || case.rattle(&mut lent));
    let [number, _, _, records, leaves, internals, _] = answer;
    let nodes = leaves + internals;
    say(&format!(
        "hostile file, {name}: refusal {number}, {} bytes of file, {output_length} of output, \
         {nodes} nodes read, {:.3} for each byte of output, {} ms",
        file.len(),
        nodes as f64 / output_length as f64,
        taken.as_millis(),
    ));
    assert!(
        nodes <= (records + 1) * (u64::from(LEVEL_LIMIT) + 1),
        "{name}: {nodes} nodes"
    );
    answer
}

/// Finds the least and the largest key on a small stack: the first children, and the last ones. The
/// model gives the same.
fn find(name: &str, file: &[u8], tree: &Tree) -> [[u64; 6]; 2] {
    [0, 255].map(|sought| {
        let finding = Finding {
            search: Search::of(file, tree, Field::new(0, 1)),
            sought,
            collected: None,
        };
        let (answer, taken) = soon(name, || finding.rattle(&mut []));
        say(&format!(
            "hostile file, {name}: finding {sought} is answered {answer:?} in {} ms",
            taken.as_millis(),
        ));
        assert_eq!(answer, finding.model(&mut []), "{name}");
        assert!(answer[3] <= u64::from(LEVEL_LIMIT) + 1, "{name}");
        answer
    })
}

/// Collects from a tower into an output that is full in the end.
fn fill(name: &str, tower: &Tower, output_length: usize) -> [u64; 7] {
    let tree = header(tower.address, tower.records, LEVEL_LIMIT);
    let answer = collect(name, &tower.file, &tree, output_length);
    let length = output_length as u64;
    assert_eq!(answer[..4], [15, length, 0, length], "{name}");
    let levels = u64::from(LEVEL_LIMIT) + 1;
    for found in find(name, &tower.file, &tree) {
        assert_eq!([found[0], found[3]], [0, levels], "{name}");
    }
    answer
}

#[test]
fn most_children_at_every_level() {
    fill("65,536 children at 32 levels", &tower(|_| MOST), 1 << 20);
    let empty_leaf = tower(|level| if level == 0 { 0 } else { MOST });
    fill(
        "65,536 children at 32 levels, no records in leaves",
        &empty_leaf,
        1 << 20,
    );
}

#[test]
fn all_children_one_node() {
    let two = tower(|level| usize::from(level > 0));
    let answer = fill("both children one node at 32 levels", &two, 1 << 20);
    assert_eq!(answer[4], answer[3] + 1, "a leaf before each record");
}

#[test]
fn chains_without_records() {
    let chains = tower(|level| if level == LEVEL_LIMIT { MOST } else { 0 });
    let tree = header(chains.address, chains.records, LEVEL_LIMIT);
    let answer = collect("65,536 chains of 32 nodes", &chains.file, &tree, MOST);
    find("65,536 chains of 32 nodes", &chains.file, &tree);
    let children = MOST as u64 + 1;
    let internals = 31 * children + 1;
    assert_eq!(
        answer,
        [0, 0, 0, MOST as u64, children, internals, MOST as u64]
    );
}

#[test]
fn node_that_is_its_own_child() {
    let form = Form::new(WIDE, LEVEL_LIMIT);
    let own = Pointer {
        address: 0,
        records: 1,
        total: 0,
    };
    let file = form.internal(LEVEL_LIMIT, &[7], &[own; 2]);
    let name = "a node that is its own child";
    let tree = header(0, 1, LEVEL_LIMIT);
    let answer = collect(name, &file, &tree, 100);
    assert_eq!(answer, [2, 0, 0, 0, 0, LEVEL_LIMIT.into(), 0]);
    let [first, _] = find(name, &file, &tree);
    assert_eq!(first, [2, 0, 0, LEVEL_LIMIT.into(), 0, 0]);
}

#[test]
fn deepest_header() {
    let file = Form::new(WIDE, 0).leaf(&[7]);
    let tree = header(0, 1, u16::MAX);
    let answer = collect("depth 65,535", &file, &tree, 100);
    assert_eq!(answer, [16, u16::MAX.into(), 0, 0, 0, 0, 0]);
    let found = find("depth 65,535", &file, &tree);
    assert_eq!(found, [[16, u16::MAX.into(), 0, 0, 0, 0]; 2]);
}

/// Bases at the limits, in a file that would keep a reader busy: no node is read.
#[test]
fn bases_at_the_limits() {
    let tower = tower(|_| MOST);
    let length = tower.file.len() as u64;
    let early = [(1, 2), (length - 1, 1), (length, 1)];
    let beyond = [length + 1, 1 << 32, 1 << 63, u64::MAX].map(|base| (base, 18));
    for (base, number) in early.into_iter().chain(beyond) {
        let name = &format!("base {base}");
        let tree = Tree {
            base,
            ..header(tower.address, tower.records, LEVEL_LIMIT)
        };
        let collecting = Collecting::of(&tower.file, &tree, 100, 0);
        let (answer, _) = soon(name, || collecting.rattle(&mut collecting.lend()));
        assert_eq!([answer[0], answer[5]], [number, 0], "{name}");
        for found in find(name, &tower.file, &tree) {
            assert_eq!([found[0], found[3]], [number, 0], "{name}");
        }
    }
    say("hostile file, bases at the limits: refused before a node is read");
}

/// What the crate makes room for ends with the length of the part behind the block, whatever the
/// file and its header say.
#[test]
fn into_vectors() {
    let shared = tower(|level| usize::from(level > 0));
    let wide = tower(|_| MOST);
    for (name, tower) in [
        ("both children one node", shared),
        ("65,536 children", wide),
    ] {
        let length = tower.file.len() as u64;
        let file = [vec![7; BLOCK], tower.file].concat();
        let begin = Instant::now();
        for total_records in [1, 1_000, u64::MAX] {
            let tree = Tree {
                total_records,
                base: BLOCK as u64,
                ..header(tower.address, tower.records, LEVEL_LIMIT)
            };
            let collected = typed::header(&tree).collect_to_vec(&file);
            let error = collected.expect_err("the tree does not end");
            assert_eq!(error.refusal, Refusal::OutputTooShort(length), "{name}");
            assert_eq!(error.counts.records, length, "{name}");
        }
        let taken = begin.elapsed();
        assert!(taken < SOON, "{name} took {taken:?}");
        say(&format!(
            "hostile file, {name}, into a vector: refused by 15 at the length behind the block, {} \
             ms",
            taken.as_millis()
        ));
    }
}
