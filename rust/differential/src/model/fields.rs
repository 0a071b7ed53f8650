//! The fields of a node in their order, and a node filled up to the end of one of them.

use super::lookup3::lookup3;
use super::numbers::put;

/// The version of a node, and of a header.
pub const VERSION: u8 = 0;

/// The bytes of each field of a node, the zeros up to the node size last. A field may have none.
pub type Fields = Vec<Vec<u8>>;

/// A leaf: signature, version, type, each record, checksum, zeros.
pub fn leaf_fields(tree_type: u8, records: &[&[u8]], node_size: usize) -> Fields {
    closed(front(b"BTLF", tree_type, records), node_size)
}

/// An internal node: as a leaf, but behind its own records the address, the record count and the
/// total of each child.
pub fn internal_fields(
    tree_type: u8,
    records: &[&[u8]],
    pointers: Fields,
    node_size: usize,
) -> Fields {
    let mut fields = front(b"BTIN", tree_type, records);
    fields.extend(pointers);
    closed(fields, node_size)
}

fn front(signature: &[u8], tree_type: u8, records: &[&[u8]]) -> Fields {
    let mut fields = vec![signature.to_vec(), vec![VERSION], vec![tree_type]];
    fields.extend(records.iter().map(|record| record.to_vec()));
    fields
}

/// The fields with the checksum of all of them, and the zeros.
fn closed(mut fields: Fields, node_size: usize) -> Fields {
    let summed = joined(&fields);
    let checksum = number(lookup3(&summed).into(), 4);
    let zeros = node_size - summed.len() - checksum.len();
    fields.extend([checksum, vec![0; zeros]]);
    fields
}

/// A field that holds a number.
pub fn number(number: u64, width: u64) -> Vec<u8> {
    let mut field = Vec::new();
    put(&mut field, number, width);
    field
}

/// The bytes of fields, end to end.
pub fn joined(fields: &[Vec<u8>]) -> Vec<u8> {
    fields.concat()
}

/// Lent bytes, with the first `budget` fields put over their front; all fields where there are no
/// more.
pub fn filled_to(budget: usize, fields: &[Vec<u8>], lent: &[u8]) -> Vec<u8> {
    let put = joined(&fields[..budget.min(fields.len())]);
    let kept = &lent[put.len()..];
    [&put, kept].concat()
}
