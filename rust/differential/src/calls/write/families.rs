//! The writing call: the families of cases.

use super::Draft;
use crate::compare::{bytes, grid, Comparison, Held};
use crate::inputs::Writing;
use crate::model::{Geometry, MOST_RECORDS};
use crate::random::Random;

/// The most records of a case of the grid, and the bytes that its records are taken from.
const MOST: u64 = 3_000;
const POOL: usize = 1 << 20;
/// Record sizes tried with each node size.
const RECORD_SIZES: usize = 8;
const RANDOM: usize = 100_000;

/// The trees of many records.
const LARGE: [(Geometry, u64); 24] = [
    (Geometry::new(65_536, 24, 8), MOST_RECORDS),
    (Geometry::new(65_536, 24, 8), 5_262_637),
    (Geometry::new(65_536, 24, 4), 100_000),
    (Geometry::new(65_536, 1, 8), MOST_RECORDS),
    (Geometry::new(65_536, 1, 4), 65_526),
    (Geometry::new(65_536, 1, 8), 65_527),
    (Geometry::new(65_536, 64, 2), 70_000),
    (Geometry::new(512, 11, 8), MOST_RECORDS),
    (Geometry::new(512, 11, 8), 608_349),
    (Geometry::new(512, 11, 8), 608_350),
    (Geometry::new(512, 11, 4), 26_449),
    (Geometry::new(512, 11, 8), 26_450),
    (Geometry::new(512, 17, 8), 1_000_000),
    (Geometry::new(512, 24, 4), 500_000),
    (Geometry::new(2048, 8, 8), 4_000_000),
    (Geometry::new(4096, 8, 8), 5_000_000),
    (Geometry::new(4096, 300, 8), 200_000),
    (Geometry::new(1000, 3, 8), 3_000_000),
    (Geometry::new(600, 64, 8), 300_000),
    (Geometry::new(100, 5, 4), 1_000_000),
    (Geometry::new(40, 8, 8), 131_071),
    (Geometry::new(40, 8, 8), 131_072),
    (Geometry::new(44, 8, 8), 1_000_000),
    (Geometry::new(30, 1, 4), 400_000),
];

/// Trees of up to some thousand records at geometries of the grid, with the type, the field sizes,
/// the start and longer buffers by turns.
pub fn on_the_grid(to: &mut Comparison, random: &mut Random) -> Held {
    let pool = random.bytes(POOL);
    let record_sizes: Vec<u16> = grid::record_sizes().collect();
    let mut sizes = record_sizes.iter().cycle();
    for node_size in grid::node_sizes() {
        for &record_size in sizes.by_ref().take(RECORD_SIZES) {
            let geometry = Geometry::new(node_size, record_size, grid::field_size(random));
            let mut counts = grid::boundaries(geometry);
            counts.extend([random.up_to(MOST), random.any_magnitude(MOST)]);
            counts.retain(|&count| count <= MOST && count * u64::from(record_size) <= POOL as u64);
            for count in counts {
                let draft = any_draft(&pool, count, geometry, random);
                to.hold("grid", &draft)?;
            }
        }
    }
    Ok(())
}

/// A write that nothing but the geometry and the start can refuse, with buffers as long as needed
/// or somewhat longer. The start is 0, any, or the last that fits.
fn any_draft<'a>(
    pool: &'a [u8],
    record_count: u64,
    geometry: Geometry,
    random: &mut Random,
) -> Draft<'a> {
    let given = Writing {
        tree_type: random.up_to(255) as u8,
        record_count,
        geometry,
        length_size: grid::field_size(random),
        start: 0,
        records: &pool[..record_count as usize * usize::from(geometry.record_size)],
    };
    let mut draft = Draft::exact(given);
    let last = draft.last_start();
    draft.given.start = [0, random.any_magnitude(last), last][random.up_to(2) as usize];
    if random.up_to(1) == 0 {
        draft.header_length += random.up_to(50) as usize;
        draft.image_length += random.any_magnitude(2_000) as usize;
    }
    draft
}

/// Every type, and every pair of field sizes, good or not.
pub fn of_every_type_and_field_size(to: &mut Comparison, random: &mut Random) -> Held {
    let pool = random.bytes(POOL);
    for tree_type in 0..=u8::MAX {
        let mut draft = any_draft(&pool, 8, Geometry::new(40, 8, 8), random);
        draft.given.tree_type = tree_type;
        to.hold("types", &draft)?;
    }
    for offset_size in 0..=u8::MAX {
        for length_size in (0..=9).chain([16, 128, 255]) {
            let mut draft = any_draft(&pool, 8, Geometry::new(60, 8, 8), random);
            draft.given.geometry.offset_size = offset_size;
            draft.given.length_size = length_size;
            to.hold("field sizes", &draft)?;
        }
    }
    Ok(())
}

/// Each refusal at its boundary: the last input that is accepted and the first that is refused.
pub fn at_the_boundaries(to: &mut Comparison, random: &mut Random) -> Held {
    let pool = random.bytes(POOL);
    for (geometry, counts) in [
        (Geometry::new(10, 1, 8), &[0, 1][..]),
        (Geometry::new(9, 1, 8), &[0, 1]),
        (Geometry::new(65_536, 65_526, 8), &[1, 2]),
        (Geometry::new(65_536, 65_527, 8), &[1]),
        (Geometry::new(65_537, 8, 8), &[4]),
        (Geometry::new(17, 8, 8), &[1]),
        (Geometry::new(26, 8, 8), &[2, 3]),
        (Geometry::new(48, 20, 8), &[1, 2, 3, 4]),
        (Geometry::new(40, 1, 8), &[65_535, 65_536, 1_000_000]),
        (Geometry::new(512, 3, 8), &[65_535, 65_536]),
    ] {
        for &count in counts {
            for length_size in grid::FIELD_SIZES {
                let mut draft = any_draft(&pool, count, geometry, random);
                draft.given.length_size = length_size;
                to.hold("boundaries", &Draft::exact(draft.given))?;
            }
        }
    }
    for count in [MOST_RECORDS, MOST_RECORDS + 1, u64::MAX] {
        let mut draft = any_draft(&pool, 5, Geometry::new(512, 11, 8), random);
        draft.given.record_count = count;
        to.hold("boundaries", &draft)?;
    }
    of_buffers_and_starts(to, &pool, random)
}

/// Buffers too short and too long by some bytes, and starts around the last that fits.
fn of_buffers_and_starts(to: &mut Comparison, pool: &[u8], random: &mut Random) -> Held {
    for offset_size in grid::FIELD_SIZES {
        for (node_size, record_size, count) in [(40, 8, 4), (40, 8, 0), (100, 3, 57), (26, 8, 2)] {
            let geometry = Geometry::new(node_size, record_size, offset_size);
            let mut draft = any_draft(pool, count, geometry, random);
            draft = Draft::exact(draft.given);
            of_short_buffers(to, draft)?;
            let length = draft.given.records.len();
            for other in (0..length).chain([length + 1, length + 2, 2 * length + 8]) {
                let mut wrong = draft;
                wrong.given.records = &pool[..other];
                to.hold("buffers", &wrong)?;
            }
            let last = draft.last_start();
            for start in (last - 2..=last.saturating_add(2)).chain([u64::MAX - 1, u64::MAX]) {
                draft.given.start = start;
                to.hold("starts", &draft)?;
            }
        }
    }
    Ok(())
}

/// Header and image buffers of every length up to the needed one.
fn of_short_buffers(to: &mut Comparison, exact: Draft) -> Held {
    for header_length in 0..=exact.header_length {
        for missing in 0..=1 {
            let short = Draft {
                header_length,
                image_length: exact.image_length - missing,
                ..exact
            };
            to.hold("buffers", &short)?;
        }
    }
    for image_length in 0..=exact.image_length {
        let short = Draft {
            image_length,
            ..exact
        };
        to.hold("buffers", &short)?;
    }
    Ok(())
}

/// Several causes of refusal at once: the first in document 01's order is told.
pub fn with_several_faults(to: &mut Comparison, random: &mut Random) -> Held {
    let pool = random.bytes(POOL);
    for _ in 0..RANDOM {
        let node_size = 30 + random.up_to(90) as u32;
        let record_size = 1 + random.up_to(12) as u16;
        let geometry = Geometry::new(node_size, record_size, grid::field_size(random));
        let count = random.any_magnitude(100);
        let mut draft = any_draft(&pool, count, geometry, random);
        for fault in FAULTS {
            if random.up_to(9) == 0 {
                fault(&mut draft, random);
            }
        }
        to.hold("several faults", &draft)?;
    }
    Ok(())
}

/// What can make a write refused, each by one of the causes.
const FAULTS: [fn(&mut Draft, &mut Random); 10] = [
    |draft, random| draft.given.geometry.offset_size = random.up_to(255) as u8,
    |draft, random| draft.given.length_size = random.up_to(255) as u8,
    |draft, random| draft.given.geometry.node_size = random.any_magnitude(u32::MAX.into()) as u32,
    |draft, _| draft.given.geometry.record_size = 0,
    |draft, random| draft.given.record_count = random.any_magnitude(u64::MAX),
    |draft, random| draft.given.geometry.node_size = 10 + random.up_to(40) as u32,
    |draft, random| {
        let length = random.up_to(draft.given.records.len() as u64) as usize;
        draft.given.records = &draft.given.records[..length];
    },
    |draft, random| draft.given.start = u64::MAX - random.any_magnitude(u64::MAX),
    |draft, random| draft.header_length = random.up_to(draft.header_length as u64) as usize,
    |draft, random| draft.image_length = random.up_to(draft.image_length as u64) as usize,
];

/// Trees of up to the most records.
pub fn of_many_records(to: &mut Comparison, random: &mut Random) -> Held {
    for (geometry, count) in LARGE {
        let records = bytes::repeated(random, count as usize * usize::from(geometry.record_size));
        let mut draft = any_draft(&records, count, geometry, random);
        draft.given.length_size = 4;
        draft.header_length = 40;
        to.hold("large", &draft)?;
    }
    Ok(())
}
