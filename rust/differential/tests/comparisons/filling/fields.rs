//! Nodes of small trees, filled by the model up to each field: held to what the C function wrote.

use std::collections::BTreeMap;
use std::iter::{once, repeat_n};

use differential::calls::write::Draft;
use differential::calls::Case;
use differential::compare::bytes::pattern;
use differential::compare::grid;
use differential::model::{self, filled_to, Geometry, Node};
use differential::random::Random;
use differential::report::say;

use super::drafted;
use nuldrafon::raw;

/// The most records of a tree.
const MOST: u64 = 100;

/// Trees with wider counts and totals.
const WIDER: [(Geometry, u64); 7] = [
    (Geometry::new(266, 1, 8), 256),
    (Geometry::new(266, 1, 2), 257),
    (Geometry::new(266, 1, 2), 13_107),
    (Geometry::new(280, 1, 8), 500),
    (Geometry::new(60, 1, 2), 612),
    (Geometry::new(100, 5, 4), 400),
    (Geometry::new(300, 33, 8), 100),
];

/// What the nodes have to come to, each at least once.
const TO_MEET: [&str; 15] = [
    "tree of depth 0",
    "tree of depth 1",
    "tree of depth 2",
    "tree of depth 3",
    "leaf without records",
    "leaf with zeros",
    "leaf without zeros",
    "internal node with zeros",
    "internal node without zeros",
    "total of 0 bytes",
    "total of 1 byte",
    "total of 2 bytes",
    "count of 1 byte",
    "count of 2 bytes",
    "several own records",
];

/// Small geometries with record counts around their capacities.
fn small() -> impl Iterator<Item = (Geometry, u64)> {
    let geometries = (10..=100).flat_map(|node_size| {
        [1, 2, 3, 4, 5, 7, 8, 11, 16, 20, 33]
            .into_iter()
            .flat_map(move |record_size| {
                let sizes = grid::FIELD_SIZES.into_iter();
                sizes.map(move |offset_size| Geometry::new(node_size, record_size, offset_size))
            })
    });
    geometries.flat_map(|geometry| {
        let counts = grid::boundaries(geometry).into_iter();
        let counts = counts.take_while(|&count| count <= MOST).chain([MOST]);
        counts.map(move |count| (geometry, count))
    })
}

/// The widths of a child's address, record count and total in a node, by the C function's table.
fn widths(geometry: Geometry, level: u16) -> [usize; 3] {
    let (node_size, record_size) = (geometry.node_size, geometry.record_size);
    let table = raw::node_info(node_size, record_size, geometry.offset_size, level);
    let total = table[2 + 2 * 33 + usize::from(level) - 1];
    [
        geometry.offset_size.into(),
        table[1] as usize,
        total as usize,
    ]
}

/// Where each field of a node ends, 0 in front.
fn ends(geometry: Geometry, node: &Node) -> Vec<usize> {
    let records = node.records as usize;
    let mut lengths = vec![4, 1, 1];
    lengths.extend(repeat_n(usize::from(geometry.record_size), records));
    if node.level > 0 {
        lengths.extend(widths(geometry, node.level).repeat(records + 1));
    }
    lengths.push(4);
    let mut end = 0;
    let mut ends: Vec<usize> = once(0)
        .chain(lengths)
        .map(|length| {
            end += length;
            end
        })
        .collect();
    ends.push(geometry.node_size as usize);
    ends
}

/// What the comparison met, and how often.
#[derive(Default)]
struct Met {
    trees: u64,
    nodes: u64,
    budgets: u64,
    kinds: BTreeMap<String, u64>,
}

impl Met {
    fn count(&mut self, kind: String) {
        *self.kinds.entry(kind).or_default() += 1;
    }

    fn count_node(&mut self, geometry: Geometry, node: &Node, zeros: usize) {
        self.nodes += 1;
        let kind = if node.level == 0 {
            "leaf"
        } else {
            "internal node"
        };
        let with = if zeros == 0 { "without" } else { "with" };
        self.count(format!("{kind} {with} zeros"));
        if node.records == 0 {
            self.count(format!("{kind} without records"));
        }
        if node.level > 0 {
            let [_, count, total] = widths(geometry, node.level);
            for (field, width) in [("count", count), ("total", total)] {
                let bytes = if width == 1 { "byte" } else { "bytes" };
                self.count(format!("{field} of {width} {bytes}"));
            }
        }
        if node.level > 0 && node.records > 1 {
            self.count("several own records".to_string());
        }
    }
}

/// Every node of a tree, where a write of it is accepted.
fn hold_tree(geometry: Geometry, record_count: u64, random: &mut Random, met: &mut Met) {
    let Ok(plan) = model::plan(record_count, geometry) else {
        return;
    };
    let mut records = Vec::new();
    let draft = drafted(geometry, record_count, &mut records, random);
    let mut lent = draft.lend();
    assert_eq!(draft.rattle(&mut lent)[0], 0, "{draft}");
    let fields = model::fields_of_nodes(&draft.given).expect("the model writes it too");
    let nodes = plan.nodes(record_count);
    let written = lent[1].chunks(geometry.node_size as usize);
    assert_eq!([nodes.len(), fields.len()], [written.len(); 2], "{draft}");
    for ((written, fields), node) in written.zip(fields).zip(nodes) {
        let ends = ends(geometry, &node);
        hold_node(written, &fields, &ends, &draft);
        met.count_node(geometry, &node, ends[fields.len()] - ends[fields.len() - 1]);
        met.budgets += fields.len() as u64 + 3;
    }
    met.trees += 1;
    met.count(format!("tree of depth {}", plan.depth));
}

/// A node filled to every budget: the written bytes up to the end of a field, then lent ones.
fn hold_node(written: &[u8], fields: &[Vec<u8>], ends: &[usize], draft: &Draft) {
    let lengths: Vec<usize> = fields.iter().map(Vec::len).collect();
    let expected: Vec<usize> = ends.windows(2).map(|ends| ends[1] - ends[0]).collect();
    assert_eq!(lengths, expected, "{draft}");
    let lent = pattern(written.len() + 3);
    for budget in 0..=fields.len() + 2 {
        let end = ends[budget.min(fields.len())];
        let expected = [&written[..end], &lent[end..]].concat();
        let filled = filled_to(budget, fields, &lent);
        assert_eq!(filled, expected, "{draft}, budget {budget}");
    }
    assert_eq!(filled_to(0, fields, &lent), lent);
    let all = filled_to(usize::MAX, fields, &lent);
    assert_eq!(all, [written, &lent[written.len()..]].concat());
}

#[test]
fn to_every_budget() {
    let random = &mut Random::new(3);
    let mut met = Met::default();
    for (geometry, count) in small().chain(WIDER) {
        hold_tree(geometry, count, random, &mut met);
    }
    for kind in TO_MEET {
        assert!(met.kinds.contains_key(kind), "never met: {kind}");
    }
    say(&format!(
        "nodes filled field by field: {} budgets of {} nodes in {} trees; {:?}",
        met.budgets, met.nodes, met.trees, met.kinds
    ));
}
