//! Written trees in files, amid other bytes.

use std::ops::Range;

use super::bytes::repeated;
use super::{block, grid, rust, Comparison, Held};
use crate::calls::write::Draft;
use crate::calls::{By, Case};
use crate::inputs::{Leaf, Tree, Writing};
use crate::model::{header_size, plan, Geometry, Plan, LEVEL_LIMIT};
use crate::random::Random;

/// A file with one tree, and what was written. The places of header and image count from the
/// tree's base.
pub struct Sample {
    pub file: Vec<u8>,
    pub header_at: usize,
    pub image_at: usize,
    pub length_size: u8,
    pub tree: Tree,
    pub records: Vec<u8>,
}

/// The sizes of a sample.
#[derive(Clone, Copy)]
pub struct Sizes {
    pub geometry: Geometry,
    pub length_size: u8,
    pub record_count: u64,
}

impl Sizes {
    pub const fn new(
        node_size: u32,
        record_size: u16,
        offset_size: u8,
        length_size: u8,
        record_count: u64,
    ) -> Sizes {
        Sizes {
            geometry: Geometry::new(node_size, record_size, offset_size),
            length_size,
            record_count,
        }
    }

    /// Records of any bytes.
    pub fn any_records(&self, random: &mut Random) -> Vec<u8> {
        repeated(random, self.records_length())
    }

    fn header_length(&self) -> usize {
        header_size(self.geometry.offset_size, self.length_size)
    }

    fn records_length(&self) -> usize {
        self.record_count as usize * usize::from(self.geometry.record_size)
    }
}

impl Sample {
    /// A tree of random type and records, written by the Rust where that is asked for and it is
    /// there; none where the write is refused. Header and image come in any order.
    pub fn new(by: By, sizes: Sizes, by_rust: bool, random: &mut Random) -> Option<Sample> {
        let records = sizes.any_records(random);
        Sample::of(by, sizes, by_rust, records, random)
    }

    /// The same of given records.
    pub fn of(
        by: By,
        sizes: Sizes,
        by_rust: bool,
        records: Vec<u8>,
        random: &mut Random,
    ) -> Option<Sample> {
        let plan = plan(sizes.record_count, sizes.geometry).ok()?;
        let image_length = plan.image_size as usize;
        let [front, middle, end] = [30, 20, 20].map(|most| random.any_magnitude(most) as usize);
        let (header_at, image_at) = match random.up_to(1) {
            0 => (front, front + sizes.header_length() + middle),
            _ => (front + image_length + middle, front),
        };
        let given = Writing {
            tree_type: random.up_to(255) as u8,
            record_count: sizes.record_count,
            geometry: sizes.geometry,
            length_size: sizes.length_size,
            start: image_at as u64,
            records: &records,
        };
        let (header, image) = written(by, &given, &plan, by_rust)?;
        let length = front + header.len() + middle + image.len() + end;
        let mut file = repeated(random, length);
        file[header_at..header_at + header.len()].copy_from_slice(&header);
        file[image_at..image_at + image.len()].copy_from_slice(&image);
        Some(Sample {
            file,
            header_at,
            image_at,
            length_size: sizes.length_size,
            tree: tree_of(&given, &plan),
            records,
        })
    }

    /// Puts a block in front of the file.
    pub fn put_behind_a_block(&mut self, random: &mut Random) {
        block::put_in_front(&mut self.file, &mut self.tree, random);
    }

    /// The places in the file of the header and of the image, the parts of it that are read.
    pub fn parts(&self) -> [Range<usize>; 2] {
        let base = self.tree.base as usize;
        let [header, image] = [self.header_at, self.image_at].map(|place| base + place);
        let header_end = header + header_size(self.tree.geometry.offset_size, self.length_size);
        let root = base + self.tree.root_address as usize;
        let image_end = root + self.tree.geometry.node_size as usize;
        [header..header_end, image..image_end]
    }

    /// The leaves of the image, from its first node on.
    pub fn leaves(&self) -> Vec<Leaf> {
        let Tree {
            geometry,
            total_records,
            base,
            ..
        } = self.tree;
        let plan = plan(total_records, geometry).expect("the tree was written");
        let places = (self.image_at as u64..).step_by(geometry.node_size as usize);
        let nodes = plan.nodes(total_records).into_iter().zip(places);
        nodes
            .filter(|(node, _)| node.level == 0)
            .map(|(node, address)| Leaf {
                base,
                address,
                count: node.records as u16,
                record_size: geometry.record_size,
            })
            .collect()
    }

    /// A node's address, one in the file or somewhat after its end, or one near 2^64.
    pub fn any_address(&self, random: &mut Random) -> u64 {
        let node_size = u64::from(self.tree.geometry.node_size);
        let root = self.tree.root_address;
        match random.up_to(3) {
            0 => random.up_to(self.file.len() as u64 + 9),
            1 => u64::MAX - random.any_magnitude(80),
            _ => root - random.up_to((root - self.image_at as u64) / node_size) * node_size,
        }
    }

    /// A base in the file, at its end or one beyond it, or any.
    pub fn any_base(&self, random: &mut Random) -> u64 {
        let length = self.file.len() as u64;
        match random.up_to(2) {
            0 => random.up_to(length),
            1 => length + random.up_to(1),
            _ => random.any_magnitude(u64::MAX),
        }
    }

    /// The header, with some of its numbers made up.
    pub fn made_up_header(&self, random: &mut Random) -> Tree {
        let mut tree = self.tree;
        for _ in 0..=random.up_to(2) {
            match random.up_to(9) {
                0 => tree.depth = random.up_to(LEVEL_LIMIT.into()) as u16,
                1 => tree.root_records = random.any_magnitude(u16::MAX.into()) as u16,
                2 => tree.root_address = self.any_address(random),
                3 => tree.geometry.node_size = random.any_magnitude(u32::MAX.into()) as u32,
                4 => tree.geometry.record_size = random.any_magnitude(u16::MAX.into()) as u16,
                5 => tree.geometry.offset_size = random.up_to(255) as u8,
                6 => tree.geometry.offset_size = grid::field_size(random),
                7 => tree.total_records = random.any_magnitude(u64::MAX),
                8 => tree.base = self.any_base(random),
                _ if random.up_to(9) == 0 => tree.depth = random.up_to(u16::MAX.into()) as u16,
                _ => tree.tree_type = random.up_to(255) as u8,
            }
        }
        tree
    }
}

/// The header and the image by the Rust or by another. The Rust is not asked where the address
/// of a child does not fit: it would cut the address, and no reader would find the child.
fn written(by: By, given: &Writing, plan: &Plan, by_rust: bool) -> Option<(Vec<u8>, Vec<u8>)> {
    if by_rust && oracle::AVAILABLE {
        let root = plan.root_address(given.start, given.geometry);
        let last_child = u128::from(root.saturating_sub(given.geometry.node_size.into()));
        let bits = 8 * u32::from(given.geometry.offset_size);
        let fits = plan.depth == 0 || last_child >> bits == 0;
        return fits.then(|| rust::serialize(given))?;
    }
    let draft = Draft::exact(*given);
    let mut lent = draft.lend();
    let answer = by.answer(&draft, &mut lent);
    let [header, image] = lent;
    (answer[0] == 0).then_some((header, image))
}

/// Runs a check on every small tree, written by who is compared and by the Rust.
pub fn for_each(
    to: &mut Comparison,
    random: &mut Random,
    mut check: impl FnMut(&mut Comparison, &mut Sample, &mut Random) -> Held,
) -> Held {
    for (sizes, by_rust) in small_sizes() {
        let sample = Sample::new(to.by, sizes, by_rust, random);
        check(to, &mut sample.ok_or("a small tree was refused")?, random)?;
    }
    Ok(())
}

/// Runs a check on some trees at any geometry, each in a file with a block in front.
pub fn for_some_behind_blocks(
    to: &mut Comparison,
    random: &mut Random,
    mut check: impl FnMut(&mut Comparison, &mut Sample, &mut Random) -> Held,
) -> Held {
    for _ in 0..BLOCKS {
        if let Some(mut sample) = any(to.by, random) {
            sample.put_behind_a_block(random);
            check(to, &mut sample, random)?;
        }
    }
    Ok(())
}

const BLOCKS: usize = 3_000;

/// The sizes of the small trees, each for a tree by who is compared and for one by the Rust.
pub fn small_sizes() -> impl Iterator<Item = (Sizes, bool)> {
    let both = |sizes| [(sizes, false), (sizes, true)];
    SMALL.into_iter().flat_map(both)
}

/// A tree of up to some hundred records at any geometry of the grid, by who is compared or the Rust;
/// none where the write is refused.
pub fn any(by: By, random: &mut Random) -> Option<Sample> {
    let sizes = any_sizes(random);
    Sample::new(by, sizes, random.up_to(1) == 0, random)
}

/// Sizes of up to some hundred records at any geometry of the grid.
pub fn any_sizes(random: &mut Random) -> Sizes {
    let geometry = grid::one_of_the_grid(random);
    let mut counts = grid::boundaries(geometry);
    counts.retain(|&count| count <= MOST_RECORDS_OF_ANY);
    Sizes {
        geometry,
        length_size: grid::field_size(random),
        record_count: match random.up_to(1) {
            0 => random.up_to(MOST_RECORDS_OF_ANY),
            _ => counts[random.up_to(counts.len() as u64 - 1) as usize],
        },
    }
}

const MOST_RECORDS_OF_ANY: u64 = 600;

/// What the header of a written tree says.
fn tree_of(given: &Writing, plan: &Plan) -> Tree {
    Tree {
        tree_type: given.tree_type,
        geometry: given.geometry,
        depth: plan.depth,
        root_address: plan.root_address(given.start, given.geometry),
        root_records: plan.root_records(given.record_count) as u16,
        total_records: given.record_count,
        base: 0,
    }
}

/// Small trees of every kind: empty, a leaf, a full leaf, thin and full trees of depth 1 to 4, one
/// and two bytes for a count, all field sizes.
const SMALL: [Sizes; 25] = [
    Sizes::new(40, 8, 8, 8, 0),
    Sizes::new(10, 1, 2, 2, 0),
    Sizes::new(40, 8, 8, 8, 1),
    Sizes::new(40, 8, 4, 2, 3),
    Sizes::new(26, 8, 8, 4, 2),
    Sizes::new(100, 1, 2, 8, 90),
    Sizes::new(1_034, 2, 8, 8, 512),
    Sizes::new(40, 8, 8, 8, 4),
    Sizes::new(40, 8, 2, 2, 4),
    Sizes::new(40, 8, 4, 8, 7),
    Sizes::new(48, 20, 8, 8, 3),
    Sizes::new(64, 3, 4, 4, 60),
    Sizes::new(128, 11, 8, 8, 50),
    Sizes::new(280, 1, 2, 4, 271),
    Sizes::new(280, 1, 4, 2, 700),
    Sizes::new(40, 8, 8, 8, 8),
    Sizes::new(40, 8, 2, 4, 15),
    Sizes::new(36, 4, 2, 2, 30),
    Sizes::new(64, 9, 4, 4, 40),
    Sizes::new(30, 2, 2, 8, 100),
    Sizes::new(40, 8, 8, 2, 16),
    Sizes::new(26, 2, 2, 2, 60),
    Sizes::new(24, 1, 2, 2, 100),
    Sizes::new(40, 8, 8, 4, 31),
    Sizes::new(40, 8, 8, 8, 33),
];
