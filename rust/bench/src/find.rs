//! Finding: Rattle, a plain find, and the checksum of one leaf alone.

use std::hint::black_box;

use differential::calls::typed;
use differential::inputs::Tree;
use differential::random::Random;
use nuldrafon::{Field, Header, WriteRequest};

use crate::cases::{finds, Case, LARGE, USUAL};
use crate::plain;
use crate::timing::{Contender, Section};

/// The number at the front of a record, whole or as few bytes of it as hold every key.
pub const WHOLE: Field = Field::new(0, 8);
const SHORT: Field = Field::new(0, 3);

/// The keys that are sought, one after another and from the first again.
const KEYS: usize = 1 << 16;

pub fn run() {
    let inputs = ["NS/RS/OW", "records", "depth", "key bytes"];
    let mut section = Section::new("Find, nanoseconds a call", &inputs);
    for case in finds() {
        let sample = Sorted::new(&case);
        sample.time(&mut section, &case, WHOLE);
        if case.record_count == 100_000 {
            sample.time(&mut section, &case, SHORT);
        }
    }
    let title = "Find in many records and in few, nanoseconds a call";
    let mut section = Section::new(title, &["NS/RS/OW"]);
    for geometry in [USUAL, LARGE] {
        let [many, few] = [5_000_000, 1_000].map(|count| Sorted::new(&Case::new(geometry, count)));
        let contenders = vec![many.rattle("5,000,000", WHOLE), few.rattle("1,000", WHOLE)];
        section.row(&[geometry.to_string()], 1, contenders);
    }
}

/// A file with a tree whose records ascend by their keys, and some of the keys in any order.
pub struct Sorted {
    pub file: Vec<u8>,
    header: Header,
    pub tree: Tree,
    pub keys: Vec<u64>,
}

impl Sorted {
    /// Every third number is a key.
    pub fn new(case: &Case) -> Sorted {
        let size = usize::from(case.geometry.record_size);
        let mut random = Random::new(1);
        let mut records = random.bytes(case.record_count as usize * size);
        for (i, record) in (0..).zip(records.chunks_exact_mut(size)) {
            record[..8].copy_from_slice(&key(i).to_le_bytes());
        }
        let (ow, lw) = (case.geometry.offset_size, 8);
        let start = Header::size(ow, lw) as u64;
        let geometry = typed::geometry(case.geometry);
        let request = WriteRequest::new(5, geometry, lw, start, &records);
        let written = request.write_to_vec().expect("the records are written");
        let file = [written.header, written.image].concat();
        let header = Header::parse(&file, 0, ow, lw).expect("the header was written");
        let keys = (0..KEYS).map(|_| key(random.up_to(case.record_count - 1)));
        Sorted {
            keys: keys.collect(),
            tree: Tree {
                tree_type: header.tree_type,
                geometry: case.geometry,
                depth: header.depth,
                root_address: header.root_address,
                root_records: header.root_records,
                total_records: header.total_records,
                base: header.base,
            },
            header,
            file,
        }
    }

    fn time(&self, section: &mut Section, case: &Case, field: Field) {
        let file = &self.file[..];
        for &key in &self.keys[..1_000] {
            let found = self.header.find(file, field, key).map(|found| found.place);
            let plain = plain::find(file, &self.tree, field, key).expect("the tree is good");
            assert_eq!(found, Ok(plain.map(|place| place as u64)));
            assert!(plain.is_some_and(|at| file[at..].starts_with(&key.to_le_bytes())));
        }
        let leaves = plain::leaves(file, &self.tree).into_iter();
        let leaf = &file[leaves
            .max_by_key(|leaf| leaf.len())
            .expect("a leaf is there")];
        let mut keys = self.keys.iter().cycle();
        let contenders = vec![
            self.rattle("Rattle", field),
            Contender::new("plain", move || {
                let key = *keys.next().expect("the keys come again");
                plain::find(black_box(file), &self.tree, field, key)
            }),
            Contender::new("one leaf's checksum", || {
                nuldrafon::jenkins_lookup3(black_box(leaf))
            }),
        ];
        let mut input = case.input();
        input.push(format!(
            "{} to {}",
            field.start,
            field.start + field.width - 1
        ));
        section.row(&input, 1, contenders);
    }

    /// Finds one key after another.
    fn rattle(&self, name: &'static str, field: Field) -> Contender<'_> {
        let mut keys = self.keys.iter().cycle();
        Contender::new(name, move || {
            let key = *keys.next().expect("the keys come again");
            self.header.find(black_box(&self.file), field, key)
        })
    }
}

/// The key of record i.
fn key(i: u64) -> u64 {
    3 * i + 1
}
