//! The capacity table.

use std::fmt;

use nuldrafon::raw;

use super::case::{array, Case, Fault};
use super::typed;
use crate::compare::{grid, rust, same, Comparison, Held};
use crate::model::{self, Geometry, LEVEL_LIMIT};
use crate::random::Random;

const RANDOM: usize = 100_000;

/// Every geometry of the grid, with each good offset size up to the deepest level, and by turns
/// with every offset size and depth.
pub fn on_the_grid(to: &mut Comparison, _: &mut Random) -> Held {
    let mut turn: u64 = 0;
    for node_size in grid::node_sizes().chain(grid::other_node_sizes()) {
        for record_size in grid::record_sizes() {
            let table = |offset_size, depth| Table {
                geometry: Geometry::new(node_size, record_size, offset_size),
                depth,
            };
            for offset_size in grid::FIELD_SIZES {
                to.hold("grid", &table(offset_size, LEVEL_LIMIT))?;
            }
            to.hold("any offset size", &table(turn as u8, LEVEL_LIMIT))?;
            to.hold("any depth", &table(turn as u8, (turn % 35) as u16))?;
            turn += 1;
        }
    }
    Ok(())
}

/// Any numbers at all.
pub fn of_any_numbers(to: &mut Comparison, random: &mut Random) -> Held {
    for _ in 0..RANDOM {
        let geometry = grid::any_geometry(random);
        let depth = match random.up_to(9) {
            0 => random.any_magnitude(u16::MAX.into()),
            _ => random.up_to(LEVEL_LIMIT.into()),
        } as u16;
        to.hold("any numbers", &Table { geometry, depth })?;
    }
    Ok(())
}

/// The table of a geometry up to a depth.
pub struct Table {
    pub geometry: Geometry,
    pub depth: u16,
}

impl fmt::Display for Table {
    fn fmt(&self, to: &mut fmt::Formatter) -> fmt::Result {
        write!(to, "table of {} to depth {}", self.geometry, self.depth)
    }
}

impl Case for Table {
    type Answer = [u64; 101];
    type Lent = [Vec<u8>; 0];

    fn lend(&self) -> Self::Lent {
        []
    }

    fn rattle(&self, _: &mut Self::Lent) -> Self::Answer {
        let sizes = self.geometry;
        raw::node_info(
            sizes.node_size,
            sizes.record_size,
            sizes.offset_size,
            self.depth,
        )
    }

    fn typed(&self, _: &mut Self::Lent) -> Self::Answer {
        let info = typed::geometry(self.geometry).node_info(self.depth);
        array(info.map(|info| {
            let mut figures = vec![info.max_nrec_size.into()];
            figures.extend(info.max_nrec);
            figures.extend(info.cum_max_nrec);
            figures.extend(info.cum_max_nrec_size.map(u64::from));
            figures
        }))
    }

    fn model(&self, _: &mut Self::Lent) -> Self::Answer {
        array(model::table(self.geometry, self.depth).map(|table| {
            let levels = usize::from(LEVEL_LIMIT) + 1;
            let mut figures = vec![table.w];
            for mut column in [table.m, table.c, table.t] {
                column.resize(levels, 0);
                figures.append(&mut column);
            }
            figures
        }))
    }

    fn hold_to_rust(&self, ours: &Self::Answer, _: &Self::Lent) -> Option<Held> {
        (self.depth <= LEVEL_LIMIT).then(|| {
            let theirs = rust::node_info(self.geometry, self.depth);
            same(*ours, theirs, "the Rust", || self.to_string())
        })
    }

    fn faults() -> Vec<Fault<Self>> {
        vec![
            Fault::<Self>::both("an entry above the depth", |table, answer, _| {
                let depth = table.depth;
                answer[2 + usize::from(depth.min(31)) + 1] |= u64::from(depth == 31);
            }),
            Fault::<Self>::both("the last width of the largest nodes", |table, answer, _| {
                answer[100] ^= u64::from(table.geometry.node_size == 600);
            }),
        ]
    }
}
