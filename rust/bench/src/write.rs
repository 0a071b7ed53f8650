//! The writing call: Rattle, the Rust's plan and serializer, and the checksums of the nodes alone.

use std::hint::black_box;

use differential::calls::typed;
use differential::compare::bytes::repeated;
use differential::compare::nodes::Form;
use differential::compare::rust;
use differential::inputs::Writing;
use differential::random::Random;

use crate::cases::{trees, Case, INPUT};
use crate::timing::{Contender, Section};

pub fn run() {
    let title = "Write, nanoseconds a record; the buffers of Rattle are ready";
    let mut section = Section::new(title, &INPUT);
    for case in trees() {
        time(&mut section, &case);
    }
}

fn time(section: &mut Section, case: &Case) {
    let (geometry, count) = (case.geometry, case.record_count);
    let length = count as usize * usize::from(geometry.record_size);
    let records = repeated(&mut Random::new(1), length);
    let given = &Writing {
        tree_type: 5,
        record_count: count,
        geometry,
        length_size: 8,
        start: 4_096,
        records: &records,
    };
    let request = typed::request(given);
    let written = request.write_to_vec().expect("the records are written");
    let (mut header, mut image, written) = (written.header, written.image.clone(), written.image);
    let nodes = summed(case);
    let mut contenders = vec![Contender::new("Rattle", || {
        black_box(request).write(&mut header, &mut image)
    })];
    if oracle::AVAILABLE {
        let rust = || rust::serialize(black_box(given));
        assert!(rust().is_some_and(|(_, image)| image == written));
        contenders.push(Contender::new("Rust", rust));
    }
    contenders.push(Contender::new("checksums", || {
        sums(black_box(&written), geometry.node_size as usize, &nodes)
    }));
    section.row(&case.input(), count, contenders);
}

/// How many bytes each node's checksum is of.
fn summed(case: &Case) -> Vec<usize> {
    let form = Form::new(case.geometry, case.plan.depth);
    let nodes = case.plan.nodes(case.record_count).into_iter();
    nodes
        .map(|node| form.length(node.level, node.records as usize) - 4)
        .collect()
}

fn sums(image: &[u8], node_size: usize, summed: &[usize]) -> u32 {
    let nodes = image.chunks(node_size).zip(summed);
    nodes.fold(0, |all, (node, &length)| {
        all ^ nuldrafon::jenkins_lookup3(&node[..length])
    })
}
