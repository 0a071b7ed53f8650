//! The writing call: the header and the node image.

use super::fields::{internal_fields, joined, leaf_fields, number, Fields, VERSION};
use super::lookup3::lookup3;
use super::numbers::{largest, put};
use super::plan::{check_offset_size, children, field_size, planned, Plan};
use super::refusal::{self, require, Answer};
use crate::inputs::Writing;

const SPLIT_PERCENT: u8 = 100;
const MERGE_PERCENT: u8 = 40;

/// The bytes of a header.
pub fn header_size(offset_size: u8, length_size: u8) -> usize {
    22 + usize::from(offset_size) + usize::from(length_size)
}

pub fn write(given: &Writing, header: &mut [u8], image: &mut [u8]) -> Answer<Plan> {
    let plan = check(given, header.len(), image.len())?;
    let root = walk(given, &plan, |place, fields| {
        let node = joined(&fields);
        image[place..place + node.len()].copy_from_slice(&node);
    });
    let bytes = header_bytes(given, plan.depth, &root);
    header[..bytes.len()].copy_from_slice(&bytes);
    Ok(plan)
}

/// Every refusal of a write, in document 01's order.
fn check(given: &Writing, header: usize, image: usize) -> Answer<Plan> {
    let length_size = given.length_size;
    check_offset_size(given.geometry.offset_size)?;
    require(field_size(length_size), refusal::length_size(length_size))?;
    let plan = planned(given.record_count, given.geometry)?;
    let length = given.records.len();
    require(
        length as u64 == given.record_count * u64::from(given.geometry.record_size),
        refusal::record_buffer(length),
    )?;
    require(
        u128::from(given.record_count) <= largest(length_size),
        refusal::count_above_field(given.record_count),
    )?;
    require(
        u128::from(given.start) + u128::from(plan.image_size)
            <= largest(given.geometry.offset_size),
        refusal::start_above_field(given.start),
    )?;
    require(
        header >= header_size(given.geometry.offset_size, length_size),
        refusal::output_too_short(header),
    )?;
    require(
        image as u64 >= plan.image_size,
        refusal::output_too_short(image),
    )?;
    Ok(plan)
}

/// The fields of each node that a write puts into its image, in the order of the nodes.
pub fn fields_of_nodes(given: &Writing) -> Answer<Vec<Fields>> {
    let plan = check(given, usize::MAX, usize::MAX)?;
    let mut nodes = Vec::new();
    walk(given, &plan, |_, fields| nodes.push(fields));
    Ok(nodes)
}

/// Goes over the nodes, hands out the place and the fields of each, and tells of the root.
fn walk(given: &Writing, plan: &Plan, mut hand_out: impl FnMut(usize, Fields)) -> Placed {
    let mut writer = Writer {
        given,
        plan,
        records: given.records,
        next: 0,
        hand_out: &mut hand_out,
    };
    writer.subtree(given.record_count, plan.depth)
}

/// What a pointer says of a node.
struct Placed {
    address: u64,
    records: u64,
    total: u64,
}

struct Writer<'a> {
    given: &'a Writing<'a>,
    plan: &'a Plan,
    /// The records not yet placed.
    records: &'a [u8],
    /// The place of the next node.
    next: usize,
    hand_out: &'a mut dyn FnMut(usize, Fields),
}

impl<'a> Writer<'a> {
    /// Hands out a subtree of n records and tells of its root.
    fn subtree(&mut self, n: u64, depth: u16) -> Placed {
        let (tree_type, node_size) = (self.given.tree_type, self.node_size());
        if depth == 0 {
            let records = self.take(n);
            return self.node(leaf_fields(tree_type, &records, node_size), n, n);
        }
        let level = usize::from(depth);
        let widths = [
            self.given.geometry.offset_size.into(),
            self.plan.table.w,
            self.plan.table.t[level - 1],
        ];
        let mut records = Vec::new();
        let mut pointers = Fields::new();
        for (i, size) in children(n, self.plan.table.c[level - 1]).enumerate() {
            if i > 0 {
                records.extend(self.take(1));
            }
            let child = self.subtree(size, depth - 1);
            let numbers = [child.address, child.records, child.total].into_iter();
            pointers.extend(
                numbers
                    .zip(widths)
                    .map(|(value, width)| number(value, width)),
            );
        }
        let fields = internal_fields(tree_type, &records, pointers, node_size);
        self.node(fields, records.len() as u64, n)
    }

    fn node_size(&self) -> usize {
        self.given.geometry.node_size as usize
    }

    /// The next records.
    fn take(&mut self, count: u64) -> Vec<&'a [u8]> {
        let size = usize::from(self.given.geometry.record_size);
        let (front, rest) = self.records.split_at(count as usize * size);
        self.records = rest;
        front.chunks(size).collect()
    }

    /// Hands out the next node, which has so many records of its own and in all.
    fn node(&mut self, fields: Fields, records: u64, total: u64) -> Placed {
        let place = self.next;
        (self.hand_out)(place, fields);
        self.next += self.node_size();
        Placed {
            address: self.given.start + place as u64,
            records,
            total,
        }
    }
}

fn header_bytes(given: &Writing, depth: u16, root: &Placed) -> Vec<u8> {
    let mut bytes = b"BTHD".to_vec();
    bytes.push(VERSION);
    bytes.push(given.tree_type);
    put(&mut bytes, given.geometry.node_size.into(), 4);
    put(&mut bytes, given.geometry.record_size.into(), 2);
    put(&mut bytes, depth.into(), 2);
    bytes.push(SPLIT_PERCENT);
    bytes.push(MERGE_PERCENT);
    put(&mut bytes, root.address, given.geometry.offset_size.into());
    put(&mut bytes, root.records, 2);
    put(&mut bytes, given.record_count, given.length_size.into());
    put_checksum(&mut bytes);
    bytes
}

/// Adds the checksum of all bytes before it.
fn put_checksum(bytes: &mut Vec<u8>) {
    let sum = lookup3(bytes);
    put(bytes, sum.into(), 4);
}
