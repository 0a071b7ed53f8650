//! The header reader: Rattle, the Rust, and the header's checksum alone.

use std::hint::black_box;

use differential::compare::sample::Sample;
use differential::inputs::Tree;

use crate::cases::{Case, INPUT};
use crate::timing::{Contender, Section};

/// A header by itself, and what it says.
pub struct Header {
    input: Vec<String>,
    bytes: Vec<u8>,
    tree: Tree,
    length_size: u8,
}

impl Header {
    /// The header in a sample's file.
    pub fn of(case: &Case, sample: &Sample) -> Header {
        let [header, _] = sample.parts();
        Header {
            input: case.input(),
            bytes: sample.file[header].to_vec(),
            tree: sample.tree,
            length_size: sample.length_size,
        }
    }
}

pub fn run(headers: &[Header]) {
    let mut section = Section::new("Header read, nanoseconds a call", &INPUT);
    for header in headers {
        time(&mut section, header);
    }
}

fn time(section: &mut Section, header: &Header) {
    let file = &header.bytes[..];
    let (ow, lw) = (header.tree.geometry.offset_size, header.length_size);
    let read = nuldrafon::Header::parse(file, 0, ow, lw);
    let figures = read.map(|header| header.figures_at());
    assert_eq!(figures, Ok(header.tree.figures()));
    let mut contenders = vec![Contender::new("Rattle", move || {
        nuldrafon::Header::parse(black_box(file), 0, ow, lw)
    })];
    if oracle::AVAILABLE {
        contenders.push(Contender::new("Rust", move || {
            oracle::parse(black_box(file), 0, ow, lw)
        }));
    }
    contenders.push(Contender::new("checksum", move || {
        nuldrafon::jenkins_lookup3(black_box(&file[..file.len() - 4]))
    }));
    section.row(&header.input, 1, contenders);
}
