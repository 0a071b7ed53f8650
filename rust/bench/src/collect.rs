//! Collecting: Rattle, the Rust, a plain collector, and the checksums of the leaves alone.

use std::hint::black_box;

use differential::calls::{typed, By};
use differential::compare::rust;
use differential::compare::sample::{Sample, Sizes};
use differential::random::Random;

use crate::cases::{trees, Case, INPUT};
use crate::header::Header;
use crate::plain;
use crate::timing::{Contender, Section};

/// Gives the headers of the files that were read.
pub fn run() -> Vec<Header> {
    let title = "Collect, nanoseconds a record; the Rust makes a vector for each record";
    let mut section = Section::new(title, &INPUT);
    let mut headers = Vec::new();
    for case in trees() {
        let sample = sample(&case);
        time(&mut section, &case, &sample);
        headers.push(Header::of(&case, &sample));
    }
    headers
}

/// A file with the tree.
pub fn sample(case: &Case) -> Sample {
    let sizes = Sizes {
        geometry: case.geometry,
        length_size: 8,
        record_count: case.record_count,
    };
    Sample::new(By::Rattle, sizes, false, &mut Random::new(1)).expect("the tree is written")
}

fn time(section: &mut Section, case: &Case, sample: &Sample) {
    let (file, tree) = (&sample.file[..], &sample.tree);
    let whole = sample.records.len();
    let [mut output, mut plain_output] = [vec![0; whole], vec![0; whole]];
    let header = typed::header(tree);
    let counts = header.collect(file, &mut output);
    assert!(counts.is_ok(), "the tree is accepted");
    assert_eq!(plain::collect(file, tree, &mut plain_output), Some(whole));
    assert!(output == sample.records && plain_output == sample.records);
    let leaves = plain::leaves(file, tree);
    let mut contenders = vec![Contender::new("Rattle", || {
        header.collect(black_box(file), &mut output)
    })];
    if oracle::AVAILABLE {
        contenders.push(Contender::new("Rust", || {
            rust::collect_apart(black_box(file), tree)
        }));
    }
    contenders.push(Contender::new("plain", || {
        plain::collect(black_box(file), tree, &mut plain_output)
    }));
    contenders.push(Contender::new("checksums", || {
        leaves.iter().fold(0, |all, leaf| {
            all ^ nuldrafon::jenkins_lookup3(black_box(&file[leaf.clone()]))
        })
    }));
    section.row(&case.input(), tree.total_records, contenders);
}
