//! Files whose nodes are made by hand: in any order, pointing at one another at random; and with the
//! leaves behind all others.

use super::nodes::{Form, Pointer};
use super::{block, grid};
use crate::inputs::Tree;
use crate::model::Geometry;
use crate::random::Random;

/// Node sizes for counts of one to four bytes; no node is as long.
const NODE_SIZES: [u32; 5] = [60, 3_000, 300_000, 100_000_000, u32::MAX];

/// A node and its place.
#[derive(Clone, Copy)]
struct Node {
    level: u16,
    records: usize,
    address: usize,
}

/// What makes the records of a node, so many bytes.
pub type Records = fn(&mut Random, usize) -> Vec<u8>;

/// A file, and a tree in it: one to three nodes of each level, each pointer to one of those a level
/// below, and now and then a pointer to another place or a wrong count. Some files are cut, and
/// some have a block in front.
pub fn grafted(records: Records, random: &mut Random) -> (Vec<u8>, Tree) {
    let depth = match random.up_to(2) {
        0 => random.up_to(32) as u16,
        _ => random.up_to(4) as u16,
    };
    let form = any_form(depth, random);
    let (nodes, length) = placed(&form, depth, random);
    let mut file = random.bytes(length);
    for node in &nodes {
        let pointers = pointers(*node, &nodes, length, random);
        let mut bytes = filled(&form, *node, records, &pointers, random);
        if random.up_to(300) == 0 {
            let at = random.up_to(bytes.len() as u64 - 1) as usize;
            bytes[at] ^= 1 << random.up_to(7);
        }
        file[node.address..node.address + bytes.len()].copy_from_slice(&bytes);
    }
    if random.up_to(2) == 0 {
        file.truncate(any_end(&form, &nodes, random));
    }
    let mut tree = tree_under(&form, nodes[nodes.len() - 1], random);
    if random.up_to(3) == 0 {
        block::put_in_front(&mut file, &mut tree, random);
    }
    (file, tree)
}

/// A file that ends with a leaf, and a tree in it of depth 0 to 3: the root, then level by level one
/// to three nodes. The last pointer of each node leads to the last node of the level below, so that
/// the last leaf is reached behind all others.
pub fn ending_in_a_leaf(records: Records, random: &mut Random) -> (Vec<u8>, Tree) {
    let depth = random.up_to(3) as u16;
    let form = any_form(depth, random);
    let mut nodes: Vec<Node> = Vec::new();
    let mut length = 0;
    for level in (0..=depth).rev() {
        let others = match level == depth {
            true => 0,
            false => random.up_to(2),
        };
        for _ in 0..=others {
            // A root without records would not be read.
            let least = u64::from(level == depth);
            let node = Node {
                level,
                records: (least + random.up_to(2)) as usize,
                address: length + random.up_to(2) as usize,
            };
            length = node.address + form.length(level, node.records);
            nodes.push(node);
        }
    }
    let mut file = random.bytes(length);
    for node in &nodes {
        let mut pointers = pointers(*node, &nodes, length, random);
        if let (Some(last), Some(child)) = (pointers.last_mut(), below(*node, &nodes).last()) {
            *last = exact(*child, random);
        }
        let bytes = filled(&form, *node, records, &pointers, random);
        file[node.address..node.address + bytes.len()].copy_from_slice(&bytes);
    }
    let tree = tree_under(&form, nodes[0], random);
    (file, tree)
}

/// Nodes of any form, for trees of a depth.
fn any_form(depth: u16, random: &mut Random) -> Form {
    let node_size = NODE_SIZES[random.up_to(4) as usize];
    let record_size = 1 + random.up_to(6) as u16;
    let geometry = Geometry::new(node_size, record_size, grid::field_size(random));
    Form::new(geometry, depth)
}

/// The tree under a root, with any number of records in all.
fn tree_under(form: &Form, root: Node, random: &mut Random) -> Tree {
    Tree {
        tree_type: 5,
        geometry: form.geometry,
        depth: root.level,
        root_address: root.address as u64,
        root_records: root.records as u16,
        total_records: random.number() | 1,
        base: 0,
    }
}

/// The nodes, the root last, with places in any order, and the length of the file.
fn placed(form: &Form, depth: u16, random: &mut Random) -> (Vec<Node>, usize) {
    let mut nodes = Vec::new();
    for level in 0..=depth {
        for _ in 0..=random.up_to(2) {
            // Deep trees branch rarely, so that most end.
            let records = match level {
                0 => random.up_to(5),
                1..=4 => random.up_to(3),
                _ => u64::from(random.up_to(5) == 0),
            };
            nodes.push(Node {
                level,
                records: records as usize,
                address: 0,
            });
        }
    }
    let mut order: Vec<usize> = (0..nodes.len()).collect();
    for last in (1..order.len()).rev() {
        order.swap(last, random.up_to(last as u64) as usize);
    }
    let mut length = 0;
    for i in order {
        nodes[i].address = length + random.up_to(5) as usize;
        length = nodes[i].address + form.length(nodes[i].level, nodes[i].records);
    }
    (nodes, length)
}

/// The bytes of a node.
fn filled(
    form: &Form,
    node: Node,
    records: Records,
    pointers: &[Pointer],
    random: &mut Random,
) -> Vec<u8> {
    let size = usize::from(form.geometry.record_size);
    let records = records(random, node.records * size);
    match node.level {
        0 => form.leaf(&records),
        level => form.internal(level, &records, pointers),
    }
}

/// The nodes of the level below a node's; none below a leaf.
fn below(node: Node, nodes: &[Node]) -> Vec<Node> {
    let level_below = |other: &&Node| other.level + 1 == node.level;
    nodes.iter().filter(level_below).copied().collect()
}

/// Pointers from a node to nodes of the level below; none from a leaf.
fn pointers(node: Node, nodes: &[Node], length: usize, random: &mut Random) -> Vec<Pointer> {
    let below = below(node, nodes);
    let Some(last) = below.len().checked_sub(1) else {
        return Vec::new();
    };
    (0..=node.records)
        .map(|_| pointer(below[random.up_to(last as u64) as usize], length, random))
        .collect()
}

/// The pointer to a node. What stands in a count's field above 16 bits is any.
fn exact(child: Node, random: &mut Random) -> Pointer {
    Pointer {
        address: child.address as u64,
        records: random.number() << 16 | child.records as u64,
        total: random.number(),
    }
}

/// A pointer, rarely a wrong one.
fn pointer(child: Node, length: usize, random: &mut Random) -> Pointer {
    let mut pointer = exact(child, random);
    match random.up_to(200) {
        0 => pointer.address = u64::MAX - random.any_magnitude(u64::MAX),
        1 => pointer.address = random.up_to(length as u64),
        2 => pointer.records = random.any_magnitude(u64::MAX),
        _ => {}
    }
    pointer
}

/// The end of a node, or a place up to 12 bytes before it, after some others.
fn any_end(form: &Form, nodes: &[Node], random: &mut Random) -> usize {
    let node = nodes[random.up_to(nodes.len() as u64 - 1) as usize];
    let end = node.address + form.length(node.level, node.records);
    end - random.up_to(12).min(end as u64) as usize
}
