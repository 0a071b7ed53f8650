//! The watch itself: writers that put the right bytes, but otherwise than the fields go, are
//! noticed.

use differential::compare::Held;
use differential::inputs::Writing;
use differential::model::{self, Fields, Geometry};
use differential::moments::{self, Seen, NOT_WATCHED};
use differential::report::say;

/// Bytes that are put at a place.
#[derive(Clone)]
struct Put {
    place: usize,
    bytes: Vec<u8>,
    by: By,
}

#[derive(Clone, Copy)]
enum By {
    /// Each by a store of its own.
    Bytes,
    /// Eight by one store.
    Eight,
    /// By the C library's copy.
    Copy,
}

/// A writer of nodes: what it puts, node by node and field by field.
type Writer = Vec<Vec<Put>>;

/// What goes wrong in a writer, and what is said of it.
struct Fault {
    name: &'static str,
    said: &'static str,
    spoil: fn(&mut Writer),
}

const fn fault(name: &'static str, said: &'static str, spoil: fn(&mut Writer)) -> Fault {
    Fault { name, said, spoil }
}

const BEFORE: &str = "before a piece before its own";
const THIRD: &str = "neither lent nor final";

/// Nodes 0 and 1 are leaves of two records and of one, node 2 is the root with one.
const FAULTS: [Fault; 15] = [
    fault("a node is cleared first", THIRD, |nodes| {
        for node in nodes {
            let size = node.iter().map(|put| put.bytes.len()).sum();
            node.insert(0, put(node[0].place, vec![0; size]));
        }
    }),
    fault("the root is cleared from its records on", THIRD, |nodes| {
        let place = nodes[2][3].place;
        nodes[2].insert(3, put(place, vec![0; 30]));
    }),
    fault("a byte is another one first", THIRD, |nodes| {
        let place = nodes[1][1].place;
        nodes[1].insert(1, put(place, vec![7]));
    }),
    fault("the zeros come before the checksum", BEFORE, |nodes| {
        for node in nodes {
            let last = node.len() - 1;
            node.swap(last - 1, last);
        }
    }),
    fault("the zeros come first", BEFORE, |nodes| {
        nodes[0].rotate_right(1);
    }),
    fault("the pointers come before the records", BEFORE, |nodes| {
        nodes[2][3..10].rotate_left(1);
    }),
    fault("counts come before addresses", BEFORE, |nodes| {
        nodes[2].swap(4, 5);
    }),
    fault("the checksum comes before the pointers", BEFORE, |nodes| {
        nodes[2][4..11].rotate_right(1);
    }),
    fault("a leaf's checksum comes early", BEFORE, |nodes| {
        nodes[0][3..6].rotate_right(1);
    }),
    fault("the type comes after the records", BEFORE, |nodes| {
        nodes[0][2..5].rotate_left(1);
    }),
    fault("a later node comes first", BEFORE, |nodes| nodes.swap(0, 1)),
    fault(
        "one store over the end of a piece",
        "never filled",
        |nodes| {
            let zeros = nodes[0].pop().expect("there are zeros");
            let checksum = nodes[0].last_mut().expect("there is a checksum");
            checksum.bytes.extend(&zeros.bytes[..4]);
            checksum.by = By::Eight;
            nodes[0].push(put(zeros.place + 4, zeros.bytes[4..].to_vec()));
        },
    ),
    fault("a field is put twice", "stored again", |nodes| {
        let again = nodes[1][1].clone();
        nodes[1].push(again);
    }),
    fault("a byte is left", "never put", |nodes| {
        nodes[2].last_mut().expect("there are zeros").bytes.pop();
    }),
    fault(
        "a byte behind the image is put",
        "behind the image",
        |nodes| {
            nodes[2].push(put(120, vec![0]));
        },
    ),
];

fn put(place: usize, bytes: Vec<u8>) -> Put {
    let by = By::Bytes;
    Put { place, bytes, by }
}

/// The writer that puts every field of the nodes in order.
fn right(nodes: &[Fields]) -> Writer {
    let mut place = 0;
    let mut in_order = |bytes: &Vec<u8>| {
        let put = put(place, bytes.clone());
        place += bytes.len();
        put
    };
    let of_node = |fields: &Fields| fields.iter().map(&mut in_order).collect();
    nodes.iter().map(of_node).collect()
}

/// The same, but a leaf's records, an own record and the zeros each by one copy.
fn copying(nodes: &[Fields]) -> Writer {
    let mut writer = right(nodes);
    for node in &mut writer {
        if node[0].bytes == b"BTLF" {
            let checksum = node.len() - 2;
            let records = node.drain(3..checksum).map(|put| put.bytes);
            let bytes = records.collect::<Vec<_>>().concat();
            node.insert(3, put(node[2].place + 1, bytes));
        }
        let zeros = node.len() - 1;
        node[3].by = By::Copy;
        node[zeros].by = By::Copy;
    }
    writer
}

/// Writes into an image.
fn write(writer: &Writer, image: &mut [u8]) {
    for put in writer.iter().flatten() {
        let part = &mut image[put.place..put.place + put.bytes.len()];
        let to = part.as_mut_ptr();
        match put.by {
            By::Bytes => {
                for (i, &byte) in put.bytes.iter().enumerate() {
                    // SAFETY: the part has as many bytes.
                    unsafe { to.add(i).write_volatile(byte) };
                }
            }
            By::Eight => {
                let eight = put.bytes.as_slice().try_into().expect("eight at once");
                // SAFETY: the part has eight bytes.
                unsafe { to.cast::<u64>().write_unaligned(u64::from_le_bytes(eight)) };
            }
            By::Copy => part.copy_from_slice(&put.bytes),
        }
    }
}

/// The fields of the nodes of a tree.
fn nodes(geometry: Geometry, record_count: u64) -> Vec<Fields> {
    let records = (1..=record_count * u64::from(geometry.record_size)).map(|i| i as u8);
    let nodes = model::fields_of_nodes(&Writing {
        tree_type: 5,
        record_count,
        geometry,
        length_size: 8,
        start: 1_000,
        records: &records.collect::<Vec<_>>(),
    });
    nodes.expect("the model writes it")
}

fn hold(nodes: &[Fields], writer: &Writer) -> Option<Held> {
    moments::hold(nodes, |image| write(writer, image), &mut Seen::default())
}

#[test]
fn none_in_the_order() {
    for (geometry, count) in [
        (Geometry::new(40, 8, 8), 4),
        (Geometry::new(38, 8, 8), 8),
        (Geometry::new(300, 16, 8), 40),
        (Geometry::new(1_000, 33, 4), 20),
    ] {
        let nodes = nodes(geometry, count);
        for writer in [right(&nodes), copying(&nodes)] {
            match hold(&nodes, &writer) {
                Some(held) => held.expect("every piece is put in order"),
                None => return say(&format!("writers in order: {NOT_WATCHED}")),
            }
        }
    }
    say("moments of writes: nothing is said of writers that put each piece in order");
}

#[test]
fn of_the_order() {
    let nodes = nodes(Geometry::new(40, 8, 8), 4);
    for Fault { name, said, spoil } in &FAULTS {
        let mut writer = right(&nodes);
        spoil(&mut writer);
        let Some(held) = hold(&nodes, &writer) else {
            return say(&format!("faults in the order of stores: {NOT_WATCHED}"));
        };
        let noticed = held.expect_err(name);
        assert!(noticed.contains(said), "{name}: {noticed}");
    }
    say(&format!(
        "moments of writes: each of {} faults in the order of stores is noticed",
        FAULTS.len()
    ));
}
