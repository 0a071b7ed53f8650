//! Records of one leaf: the families of cases.

use crate::compare::block;
use crate::compare::nodes::Form;
use crate::compare::sample::{self, for_each, for_some_behind_blocks, Sample};
use crate::compare::{Comparison, Held};
use crate::inputs::Leaf;
use crate::model::Geometry;
use crate::random::Random;

/// Trees at any geometry, made-up numbers for each small file, and looks at each large leaf.
const TREES: usize = 3_000;
const MADE_UP: usize = 500;
const LOOKS: usize = 40;
/// Leaves up to this long get every damage of a byte.
const EVERY_DAMAGE: u64 = 26;

/// Every leaf of the small trees: each record and some indexes behind the last, and outputs of
/// every length up to that of a record.
pub fn as_written(to: &mut Comparison, random: &mut Random) -> Held {
    for_each(to, random, |to, sample, random| {
        for leaf in sample.leaves() {
            let (size, count) = (usize::from(leaf.record_size), u64::from(leaf.count));
            let indexes = (0..count + 2).chain([u64::MAX]);
            let looks = indexes.flat_map(|index| [size, size + 5].map(|length| (index, length)));
            to.hold_looks("as written", &sample.file, &leaf, looks)?;
            let any = below(&leaf, random);
            let looks = (0..size).flat_map(|length| [(any, length), (count, length)]);
            to.hold_looks("outputs", &sample.file, &leaf, looks)?;
        }
        Ok(())
    })
}

/// A leaf of trees at any geometry: as it is, and damaged.
pub fn of_any_geometry(to: &mut Comparison, random: &mut Random) -> Held {
    for _ in 0..TREES {
        let Some(mut sample) = sample::any(to.by, random) else {
            continue;
        };
        let leaf = one_of(&sample, random);
        let looks = [(); 4].map(|()| any_look(&leaf, random));
        to.hold_looks("any geometry", &sample.file, &leaf, looks)?;
        let last = u64::from(sample.tree.geometry.node_size) - 1;
        sample.file[(leaf.address + random.up_to(last)) as usize] ^= 1 << random.up_to(7);
        to.hold_looks("any geometry, damaged", &sample.file, &leaf, looks)?;
    }
    Ok(())
}

/// Every end of the file up to some bytes after a leaf of it, without and with a block in front.
pub fn cut(to: &mut Comparison, random: &mut Random) -> Held {
    for_each(to, random, |to, sample, random| {
        for class in ["cut", "cut behind a block"] {
            let leaf = one_of(sample, random);
            let end = (leaf.base + leaf.address + length_of(&leaf) + 2) as usize;
            for length in 0..=end.min(sample.file.len()) {
                let looks = [
                    any_look(&leaf, random),
                    (below(&leaf, random), leaf.record_size.into()),
                ];
                to.hold_looks(class, &sample.file[..length], &leaf, looks)?;
            }
            sample.put_behind_a_block(random);
        }
        Ok(())
    })
}

/// Each byte of a leaf changed, in every way in the smallest leaves and in some in the others.
pub fn damaged(to: &mut Comparison, random: &mut Random) -> Held {
    for_each(to, random, |to, sample, random| {
        let leaf = one_of(sample, random);
        let turns: Vec<u8> = match length_of(&leaf) {
            0..=EVERY_DAMAGE => (1..=0xff).collect(),
            _ => vec![1, 16, 128, 0xff],
        };
        for place in leaf.address..leaf.address + length_of(&leaf) {
            for &turn in &turns {
                sample.file[place as usize] ^= turn;
                let looks = [any_look(&leaf, random)];
                to.hold_looks("damaged", &sample.file, &leaf, looks)?;
                sample.file[place as usize] ^= turn;
            }
        }
        Ok(())
    })
}

/// Every base of the small files, and huge ones: a leaf at its address, and where it stands.
pub fn at_every_base(to: &mut Comparison, random: &mut Random) -> Held {
    for_each(to, random, |to, sample, random| {
        let whole = one_of(sample, random);
        for base in block::every(sample.file.len()) {
            for address in [whole.address, whole.address.wrapping_sub(base)] {
                let leaf = Leaf {
                    base,
                    address,
                    ..whole
                };
                let looks = [any_look(&leaf, random)];
                to.hold_looks("every base", &sample.file, &leaf, looks)?;
            }
        }
        Ok(())
    })
}

/// Leaves behind blocks, at any geometry: as they are, from other bases, with a record size of 0,
/// cut, and damaged.
pub fn behind_blocks(to: &mut Comparison, random: &mut Random) -> Held {
    for_some_behind_blocks(to, random, |to, sample, random| {
        let leaf = one_of(sample, random);
        let looks = [(); 2].map(|()| any_look(&leaf, random));
        to.hold_looks("behind blocks", &sample.file, &leaf, looks)?;
        for base in block::some(sample.file.len(), random) {
            for record_size in [leaf.record_size, 0] {
                let leaf = Leaf {
                    base,
                    record_size,
                    ..leaf
                };
                let looks = [any_look(&leaf, random)];
                to.hold_looks("other bases", &sample.file, &leaf, looks)?;
            }
        }
        let place = leaf.base + leaf.address + random.up_to(length_of(&leaf) - 1);
        let cut = &sample.file[..place as usize];
        to.hold_looks("behind blocks, cut", cut, &leaf, looks)?;
        sample.file[place as usize] ^= 1 << random.up_to(7);
        to.hold_looks("behind blocks, damaged", &sample.file, &leaf, looks)
    })
}

/// Leaves with some numbers made up, over the small files, some of which end soon after the records
/// that are asked for.
pub fn with_made_up_numbers(to: &mut Comparison, random: &mut Random) -> Held {
    for_each(to, random, |to, sample, random| {
        for _ in 0..MADE_UP {
            let leaf = made_up(sample, random);
            let whole = sample.file.len();
            let soon = leaf
                .address
                .saturating_add(length_of(&leaf) - random.up_to(4));
            let length = match random.up_to(2) {
                0 => whole.min(soon as usize),
                _ => whole,
            };
            let looks = [any_look(&leaf, random)];
            to.hold_looks("made-up numbers", &sample.file[..length], &leaf, looks)?;
        }
        Ok(())
    })
}

/// A leaf of the sample that differs in some of its numbers.
fn made_up(sample: &Sample, random: &mut Random) -> Leaf {
    let mut leaf = one_of(sample, random);
    for _ in 0..=random.up_to(1) {
        match random.up_to(7) {
            0 => leaf.address = sample.any_address(random),
            1 => leaf.count = random.any_magnitude(u16::MAX.into()) as u16,
            2 => leaf.count = random.up_to(leaf.count.into()) as u16,
            3 => leaf.record_size = random.any_magnitude(u16::MAX.into()) as u16,
            4 => leaf.record_size = random.up_to(leaf.record_size.into()) as u16,
            5 => (leaf.count, leaf.record_size) = (leaf.record_size, leaf.count),
            6 => leaf.base = sample.any_base(random),
            _ => {}
        }
    }
    leaf
}

/// Records and record sizes of large leaves.
const LARGE: [(u16, u16); 5] = [
    (65_535, 1),
    (1, 65_535),
    (20_001, 3),
    (40, 1_500),
    (17, 65_535),
];

/// Large leaves amid other bytes: whole, cut anywhere, and with a bit turned anywhere.
pub fn of_many_bytes(to: &mut Comparison, random: &mut Random) -> Held {
    for (count, record_size) in LARGE {
        let form = Form::new(Geometry::new(u32::MAX, record_size, 8), 0);
        let records = random.bytes(usize::from(count) * usize::from(record_size));
        let [front, end] = [30, 20].map(|most| random.up_to(most) as usize);
        let leaf = Leaf {
            base: 0,
            address: front as u64,
            count,
            record_size,
        };
        let mut file = [random.bytes(front), form.leaf(&records), random.bytes(end)].concat();
        let looks = [(); LOOKS].map(|()| any_look(&leaf, random));
        to.hold_looks("large", &file, &leaf, looks)?;
        for looks in looks.chunks(4) {
            let looks = looks.iter().copied();
            let place = front + random.up_to(length_of(&leaf) - 1) as usize;
            to.hold_looks("large, cut", &file[..place], &leaf, looks.clone())?;
            let turn = 1 << random.up_to(7);
            file[place] ^= turn;
            to.hold_looks("large, damaged", &file, &leaf, looks)?;
            file[place] ^= turn;
        }
    }
    Ok(())
}

/// A leaf of the sample.
fn one_of(sample: &Sample, random: &mut Random) -> Leaf {
    let leaves = sample.leaves();
    leaves[random.up_to(leaves.len() as u64 - 1) as usize]
}

/// The bytes of a leaf with its checksum.
fn length_of(leaf: &Leaf) -> u64 {
    10 + u64::from(leaf.count) * u64::from(leaf.record_size)
}

/// The index of a record; 0 where there is none.
fn below(leaf: &Leaf, random: &mut Random) -> u64 {
    random.up_to(u64::from(leaf.count).saturating_sub(1))
}

/// An index, mostly of a record, and the length of an output, mostly that of a record.
fn any_look(leaf: &Leaf, random: &mut Random) -> (u64, usize) {
    let (size, below) = (u64::from(leaf.record_size), below(leaf, random));
    let index = match random.up_to(9) {
        0 => u64::from(leaf.count) + random.up_to(2),
        1 => u64::MAX - random.any_magnitude(u64::MAX),
        // Those of a record but for bits that a cut number or a cut product would lose.
        2 => below + (random.any_magnitude(u64::MAX >> 16) << 16),
        3 => below + (u64::MAX / size.max(2) + 1),
        _ => below,
    };
    let length = match random.up_to(4) {
        0 => random.up_to(size),
        1 => size + random.any_magnitude(40),
        _ => size,
    };
    (index, length as usize)
}
