//! Nodes filled in one pass, field after field, as document 02 has it.

mod faults;
mod fields;
mod moments;

use differential::calls::write::Draft;
use differential::inputs::Writing;
use differential::model::Geometry;
use differential::random::Random;

/// A write of so many records, which are drawn and kept in `records`; its buffers are as long as
/// needed.
fn drafted<'a>(
    geometry: Geometry,
    record_count: u64,
    records: &'a mut Vec<u8>,
    random: &mut Random,
) -> Draft<'a> {
    *records = random.bytes(record_count as usize * usize::from(geometry.record_size));
    Draft::exact(Writing {
        tree_type: random.up_to(255) as u8,
        record_count,
        geometry,
        length_size: 8,
        start: random.up_to(20_000),
        records,
    })
}
