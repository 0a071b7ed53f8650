//! The pieces of nodes: fields that one store or one copy may put together.

use std::ops::Range;

use crate::model::{joined, Fields};

/// What puts a piece.
#[derive(Debug, Clone, Copy, PartialEq, Eq)]
pub enum By {
    /// Stores of its own.
    Stores,
    /// A copy of one or more records.
    Copy,
    /// A fill with zeros.
    Fill,
}

/// A piece of a node.
pub struct Piece {
    /// Its fields.
    pub fields: Range<usize>,
    pub by: By,
    /// The places of its bytes in the image.
    pub places: Range<usize>,
}

/// How many fields the first piece of a node has: the signature, the version and the type.
pub const FRONT: usize = 3;

/// Where the fields of each piece of a node end, and what puts it. The fields in front are one
/// piece, since the compiler may join their stores; so are a leaf's records, which are copied at
/// once. Every other field is a piece by itself.
fn ends(fields: &Fields, records: usize) -> Vec<(usize, By)> {
    let behind = FRONT + records;
    let copies = match fields[0].as_slice() {
        b"BTLF" => behind..=behind,
        _ => FRONT + 1..=behind,
    };
    let stores = behind + 1..fields.len();
    let mut ends = vec![(FRONT, By::Stores)];
    ends.extend(copies.map(|end| (end, By::Copy)));
    ends.extend(stores.map(|end| (end, By::Stores)));
    ends.push((fields.len(), By::Fill));
    ends
}

/// How many records a node has: all fields of a leaf but five are records, and of an internal node
/// with k of them 8 + 4 k are fields.
fn records(fields: &Fields) -> usize {
    match fields[0].as_slice() {
        b"BTLF" => fields.len() - 5,
        _ => (fields.len() - 8) / 4,
    }
}

/// The pieces of each node, in order.
pub fn pieces(nodes: &[Fields]) -> Vec<Vec<Piece>> {
    let mut place = 0;
    let of_node = |fields: &Fields| {
        let mut from = 0;
        let ends = ends(fields, records(fields)).into_iter();
        ends.map(|(to, by)| {
            let length = joined(&fields[from..to]).len();
            let piece = Piece {
                fields: from..to,
                by,
                places: place..place + length,
            };
            (from, place) = (to, place + length);
            piece
        })
        .collect()
    };
    nodes.iter().map(of_node).collect()
}
