//! The inputs and refusals of the comparisons in the types of the crate nuldrafon, and back.

use nuldrafon::{Geometry, Header, Plan, RecordValues, Refusal, WriteRequest};

use super::case::Told;
use crate::inputs::{self, Tree, Writing};
use crate::model;

impl Told for Refusal {
    fn told(&self) -> [u64; 3] {
        let unnamed = matches!(self, Refusal::Unnamed { .. });
        assert!(!unnamed, "the crate has no name for {self:?}");
        let [first, second] = self.values();
        [self.number(), first, second]
    }
}

pub fn geometry(geometry: model::Geometry) -> Geometry {
    Geometry::new(
        geometry.node_size,
        geometry.record_size,
        geometry.offset_size,
    )
}

pub fn header(tree: &Tree) -> Header {
    let mut header = Header::default();
    header.tree_type = tree.tree_type;
    header.geometry = geometry(tree.geometry);
    header.depth = tree.depth;
    header.root_address = tree.root_address;
    header.root_records = tree.root_records;
    header.total_records = tree.total_records;
    header.base = tree.base;
    header
}

pub fn request<'a>(given: &Writing<'a>) -> WriteRequest<'a> {
    WriteRequest {
        tree_type: given.tree_type,
        geometry: geometry(given.geometry),
        length_size: given.length_size,
        start: given.start,
        record_count: given.record_count,
        records: given.records,
    }
}

/// The figures of a plan in the order of an answer.
pub fn figures(plan: Plan) -> [u64; 4] {
    [plan.depth.into(), plan.nodes, plan.leaves, plan.image_size]
}

pub fn values(values: &inputs::RecordValues) -> RecordValues {
    RecordValues {
        name_hash: values.name_hash,
        heap_id: values.heap_id,
        message_flags: values.message_flags,
        creation_order: values.creation_order,
    }
}

/// The values of a record in the order of an answer.
pub fn figures_of_record(values: RecordValues) -> [u64; 4] {
    [
        values.name_hash,
        values.heap_id,
        values.message_flags,
        values.creation_order,
    ]
}
