//! The sizes that the comparisons go over.

use crate::model::{Geometry, Table, MOST_RECORDS};
use crate::random::Random;

pub const FIELD_SIZES: [u8; 3] = [2, 4, 8];

/// Every node size from 10 to 600, and those around the powers of two up to 65,536.
pub fn node_sizes() -> impl Iterator<Item = u32> {
    let powers = (10..=16).map(|power| 1 << power);
    (10..=600).chain(powers.flat_map(|power: u32| power - 2..=power + 2))
}

/// Node sizes that no plan takes.
pub fn other_node_sizes() -> impl Iterator<Item = u32> {
    let large = [65_537, 65_546, 1 << 20, (1 << 24) + 9, 1 << 31, u32::MAX];
    (0..10).chain(large)
}

/// Record sizes from 1 to 64, 0, and those at the limits of one and two bytes.
pub fn record_sizes() -> impl Iterator<Item = u16> {
    (0..=64).chain([
        254, 255, 256, 32_768, 65_525, 65_526, 65_527, 65_534, 65_535,
    ])
}

/// Any geometry, small sizes as often as large ones.
pub fn any_geometry(random: &mut Random) -> Geometry {
    Geometry {
        node_size: random.any_magnitude(u32::MAX.into()) as u32,
        record_size: random.any_magnitude(u16::MAX.into()) as u16,
        offset_size: match random.up_to(3) {
            0 => random.up_to(255) as u8,
            _ => field_size(random),
        },
    }
}

/// A geometry of the grid that a plan can have.
pub fn one_of_the_grid(random: &mut Random) -> Geometry {
    let powers = [1_024, 2_048, 4_096, 65_536];
    Geometry {
        node_size: match random.up_to(9) {
            0 => powers[random.up_to(3) as usize],
            _ => 10 + random.up_to(590) as u32,
        },
        record_size: 1 + random.any_magnitude(63) as u16,
        offset_size: field_size(random),
    }
}

/// 2, 4 or 8.
pub fn field_size(random: &mut Random) -> u8 {
    FIELD_SIZES[random.up_to(2) as usize]
}

/// Record counts around every capacity and every least number of records of a depth, as far as
/// levels hold any and a plan can need them; rising, each once.
pub fn boundaries(geometry: Geometry) -> Vec<u64> {
    let mut counts = vec![0, 1, 2];
    let mut table = Table::leaf_only(geometry);
    loop {
        let depth = table.c.len() - 1;
        let capacity = table.c[depth];
        let least = (1_u64 << (depth + 1)) - 1;
        counts.extend([
            capacity.saturating_sub(1),
            capacity,
            capacity.saturating_add(1),
        ]);
        counts.extend([least - 1, least]);
        if capacity > MOST_RECORDS || table.m[depth] == 0 {
            break;
        }
        table.grow(geometry);
    }
    counts.sort_unstable();
    counts.dedup();
    counts
}
