//! The crate nuldrafon: every public function takes every input. That its types answer as the C
//! functions do, the suites show.

use std::error::Error;
use std::hint::black_box;

use differential::calls::By;
use differential::compare::sample;
use differential::random::Random;
use differential::report::say;
use nuldrafon::{
    jenkins_lookup3, Field, Geometry, Header, LeafView, RecordValues, Refusal, WriteRequest,
};

const SEED: u64 = 0x0bad_5eed_0000_0003;
const ROUNDS: usize = 200_000;

/// Numbers at and around the limits of every width and of document 01.
const LIMITS: [u64; 19] = [
    0,
    1,
    2,
    4,
    8,
    9,
    10,
    32,
    33,
    255,
    256,
    65_535,
    65_536,
    16_777_215,
    16_777_216,
    u32::MAX as u64,
    i64::MAX as u64,
    u64::MAX - 6,
    u64::MAX,
];

/// A limit, or any number.
fn any(random: &mut Random) -> u64 {
    match random.up_to(1) {
        0 => LIMITS[random.up_to(LIMITS.len() as u64 - 1) as usize],
        _ => random.any_magnitude(u64::MAX),
    }
}

/// A base in the file or one beyond it, or any.
fn any_base(file: &[u8], random: &mut Random) -> u64 {
    match random.up_to(1) {
        0 => random.up_to(file.len() as u64 + 1),
        _ => any(random),
    }
}

fn any_geometry(random: &mut Random) -> Geometry {
    let [node_size, record_size, offset_size] = [(); 3].map(|()| any(random));
    let mut geometry = Geometry::new(node_size as u32, record_size as u16, offset_size as u8);
    if random.up_to(1) == 0 {
        geometry.node_size %= 600;
        geometry.offset_size = [2, 4, 8][random.up_to(2) as usize];
    }
    geometry
}

/// A refusal says something, and has a number and a name.
fn told(refusal: &Refusal) {
    assert!(!refusal.to_string().is_empty() && refusal.source().is_none());
    assert!(refusal.number() > 0, "{refusal:?}");
    assert!(!matches!(refusal, Refusal::Unnamed { .. }), "{refusal:?}");
    black_box(refusal.values());
}

/// An error with more than a refusal says it too.
fn told_with_counts<E: Error + Copy + Into<Refusal>>(error: E) {
    let refusal = error.into();
    told(&refusal);
    let told = error.to_string();
    assert!(told.ends_with(&refusal.to_string()), "{told}");
    assert!(error.source().is_some());
}

fn plans_and_writes(random: &mut Random) {
    let geometry = any_geometry(random);
    let _ = geometry.plan(any(random)).map_err(|refusal| told(&refusal));
    let info = geometry.node_info(any(random) as u16);
    let _ = info.map_err(|refusal| told(&refusal));

    let length = random.any_magnitude(2_000) as usize;
    let records = random.bytes(length);
    let [tree_type, length_size] = [(); 2].map(|()| any(random) as u8);
    let mut request = WriteRequest::new(tree_type, geometry, length_size, any(random), &records);
    if random.up_to(3) == 0 {
        request.record_count = any(random);
    }
    if random.up_to(1) == 0 {
        request.length_size = 8;
    }
    let [header, image] = [60, 70_000].map(|most| random.any_magnitude(most) as usize);
    let written = request.write(&mut vec![0; header], &mut vec![0; image]);
    let _ = written.map_err(|refusal| told(&refusal));
    let _ = request.write_to_vec().map_err(|refusal| told(&refusal));
}

fn reads(file: &[u8], sample: Option<Header>, random: &mut Random) {
    black_box(jenkins_lookup3(file));
    let [offset_size, length_size] = [(); 2].map(|()| any(random) as u8);
    black_box(Header::size(offset_size, length_size));
    let header = Header::parse(file, any(random), offset_size, length_size);
    let base = any_base(file, random);
    let based = Header::parse_at(file, base, any(random), offset_size, length_size);
    let header = header.or(based).inspect_err(told);
    let mut header = header.or(sample.ok_or(())).unwrap_or_default();
    for _ in 0..random.up_to(3) {
        match random.up_to(6) {
            0 => header.geometry = any_geometry(random),
            1 => header.depth = any(random) as u16,
            2 => header.root_address = any(random),
            3 => header.root_records = any(random) as u16,
            4 => header.total_records = any(random),
            5 => header.base = any_base(file, random),
            _ => header.tree_type = any(random) as u8,
        }
    }
    black_box((header.figures(), header.figures_at()));
    let mut output = vec![0; random.any_magnitude(5_000) as usize];
    let _ = header.collect(file, &mut output).map_err(told_with_counts);
    let _ = header.collect_to_vec(file).map_err(told_with_counts);
    let key = Field::new(any(random), any(random));
    let found = header.find(file, key, any(random));
    let _ = found.map_err(told_with_counts);
    looks(file, &header, random);
    records(file, random);
}

fn looks(file: &[u8], header: &Header, random: &mut Random) {
    let [count, record_size] = [(); 2].map(|()| any(random) as u16);
    let address = [any(random), header.root_address][random.up_to(1) as usize];
    let base = any_base(file, random);
    for view in [
        LeafView::new(file, address, count, record_size),
        LeafView::new_at(file, base, address, count, record_size),
    ] {
        match view {
            Ok(view) => {
                let index = any(random) as usize;
                assert_eq!(view.record(index).is_some(), index < view.len());
                assert_eq!(view.into_iter().flatten().count(), view.as_bytes().len());
                assert_eq!(view.is_empty(), view.records().next().is_none());
            }
            Err(refusal) => told(&refusal),
        }
    }
}

/// Records by their meaning, mostly of a known type.
fn records(file: &[u8], random: &mut Random) {
    let tree_type = [5, 6, 8, 9, any(random) as u8][random.up_to(4) as usize];
    let length = file.len().min(random.up_to(20) as usize);
    let read = RecordValues::read(tree_type, &file[..length]);
    let values = read.inspect_err(told).unwrap_or_else(|_| RecordValues {
        name_hash: any(random),
        heap_id: any(random),
        message_flags: any(random),
        creation_order: any(random),
    });
    let mut output = vec![0; random.any_magnitude(40) as usize];
    let written = values.write(tree_type, &mut output);
    let _ = written.map_err(|refusal| told(&refusal));
    let written = values.write_to_vec(tree_type);
    let _ = written.map_err(|refusal| told(&refusal));
}

#[test]
fn any_input() {
    let random = &mut Random::new(SEED);
    for turn in 0..ROUNDS {
        plans_and_writes(random);
        // A written tree, or any bytes with a signature in front.
        let sample = (turn % 20 == 0).then(|| sample::any(By::Rattle, random));
        match sample.flatten() {
            Some(sample) => {
                let header = differential::calls::typed::header(&sample.tree);
                reads(&sample.file, Some(header), random);
            }
            None => {
                let length = random.up_to(80) as usize;
                let mut file = random.bytes(length);
                let front: &[u8] = [b"BTHD\0", b"BTLF\0", b"BTIN\0"][random.up_to(2) as usize];
                let length = front.len().min(length);
                file[..length].copy_from_slice(&front[..length]);
                reads(&file, None, random);
            }
        }
    }
    say(&format!(
        "the crate's types: no panic in {ROUNDS} rounds of any input, seed {SEED:#x}"
    ));
}
