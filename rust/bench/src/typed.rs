//! The crate's types around the C functions: what they add for 1,000 records.

use std::hint::black_box;

use differential::calls::{collect::Collecting, typed, write::Draft, Case as _};
use differential::compare::sample::Sample;
use differential::inputs::Writing;
use nuldrafon::{raw, Field, Header};

use crate::cases::{Case, USUAL};
use crate::collect::sample;
use crate::timing::{Contender, Section};

const RECORDS: u64 = 1_000;

pub fn run() {
    let title = "The crate's types and the C functions, nanoseconds a call of 1,000 records";
    let mut section = Section::new(title, &["call"]);
    let sample = sample(&Case::new(USUAL, RECORDS));
    plan_and_parse(&mut section, &sample);
    write_and_collect(&mut section, &sample);
    find(&mut section, &sample);
}

fn plan_and_parse(section: &mut Section, sample: &Sample) {
    let (file, at) = (&sample.file[..], sample.header_at as u64);
    let (rs, ns, ow, lw) = (USUAL.record_size, USUAL.node_size, USUAL.offset_size, 8);
    let geometry = typed::geometry(USUAL);
    let contenders = vec![
        typed_by(|| black_box(geometry).plan(black_box(RECORDS))),
        as_it_is(|| raw::plan(black_box(RECORDS), rs, ns, ow)),
    ];
    section.row(&["plan".to_string()], 1, contenders);
    let contenders = vec![
        typed_by(|| Header::parse(black_box(file), at, ow, lw)),
        as_it_is(|| raw::parse_at(black_box(file), 0, at, ow, lw)),
    ];
    section.row(&["parse".to_string()], 1, contenders);
}

fn write_and_collect(section: &mut Section, sample: &Sample) {
    let draft = Draft::exact(Writing {
        tree_type: 5,
        record_count: RECORDS,
        geometry: USUAL,
        length_size: 8,
        start: 4_096,
        records: &sample.records,
    });
    let request = typed::request(&draft.given);
    let [[mut header, mut image], mut buffers] = [draft.lend(), draft.lend()];
    let contenders = vec![
        typed_by(|| black_box(request).write(&mut header, &mut image)),
        as_it_is(|| black_box(&draft).rattle(&mut buffers)),
    ];
    section.row(&["write".to_string()], 1, contenders);

    let collecting = Collecting::of(&sample.file, &sample.tree, sample.records.len(), 0);
    let header = typed::header(&sample.tree);
    let [[mut output], mut other] = [collecting.lend(), collecting.lend()];
    let contenders = vec![
        typed_by(|| black_box(header).collect(black_box(collecting.file), &mut output)),
        as_it_is(|| black_box(&collecting).rattle(&mut other)),
    ];
    section.row(&["collect".to_string()], 1, contenders);
    assert!(output == sample.records && other[0] == sample.records);
}

fn find(section: &mut Section, sample: &Sample) {
    let (file, header) = (&sample.file[..], typed::header(&sample.tree));
    let (field, figures, ow) = (Field::new(0, 8), header.figures_at(), USUAL.offset_size);
    // Records in any order: whatever is found, both read the same nodes.
    let sought = u64::MAX / 2;
    let contenders = vec![
        typed_by(|| black_box(header).find(black_box(file), field, sought)),
        as_it_is(|| raw::find_at(black_box(file), black_box(&figures), ow, 0, 8, sought)),
    ];
    section.row(&["find".to_string()], 1, contenders);
}

fn typed_by<'a, T>(call: impl FnMut() -> T + 'a) -> Contender<'a> {
    Contender::new("types", call)
}

fn as_it_is<'a, T>(call: impl FnMut() -> T + 'a) -> Contender<'a> {
    Contender::new("C function", call)
}

#[cfg(test)]
mod tests {
    use differential::calls::typed;
    use differential::compare::nodes::{Form, Pointer};
    use differential::inputs::Tree;
    use differential::model::Geometry;
    use differential::report::say;
    use std::hint::black_box;

    use crate::memory::taken;

    /// A file of a block, one leaf and a root whose children all are that leaf, and its tree.
    fn shared_leaf(geometry: Geometry, total_records: u64) -> (Vec<u8>, Tree) {
        let form = Form::new(geometry, 1);
        let leaf = form.leaf(&[7; 40]);
        let pointer = Pointer {
            address: 0,
            records: 40,
            total: 40,
        };
        let root = form.internal(1, &[8; 20], &[pointer; 21]);
        let tree = Tree {
            tree_type: 5,
            geometry,
            depth: 1,
            root_address: leaf.len() as u64,
            root_records: 20,
            total_records,
            base: 300,
        };
        ([vec![0; 300], leaf, root].concat(), tree)
    }

    /// Whatever the header says of its records, no more heap is held than the part of the file
    /// behind the block is long.
    #[test]
    fn a_lie_of_the_header_takes_no_room() {
        for total_records in [1, 20, 1 << 20, 1 << 40, u64::MAX] {
            let (file, tree) = shared_leaf(Geometry::new(4_096, 1, 8), total_records);
            let header = typed::header(&tree);
            let taken = taken(&mut || drop(black_box(header.collect_to_vec(&file))));
            let part = file.len() - tree.base as usize;
            assert!(taken.heap > 0 && taken.heap <= part as isize);
        }
        say("a vector of records takes no more heap than the file has bytes behind the block");
    }
}
