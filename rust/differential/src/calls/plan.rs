//! The planner.

use std::fmt;

use nuldrafon::raw;

use super::case::{array, Case, Fault};
use super::typed;
use crate::compare::{grid, rust, same, Comparison, Held};
use crate::model::{self, Geometry, MOST_RECORDS};
use crate::random::Random;

/// Beyond this many records the Rust, which builds every node, is asked for chosen cases only.
const RUST_LIMIT: u64 = 1_500;
const RANDOM: usize = 150_000;

/// Geometries and record counts for which the Rust builds large trees.
const LARGE: [(Geometry, u64); 16] = [
    (Geometry::new(65_536, 24, 8), MOST_RECORDS),
    (Geometry::new(65_536, 24, 8), 5_262_636),
    (Geometry::new(65_536, 24, 8), 5_262_637),
    (Geometry::new(65_536, 1, 2), MOST_RECORDS),
    (Geometry::new(512, 11, 8), MOST_RECORDS),
    (Geometry::new(512, 11, 8), 608_349),
    (Geometry::new(512, 11, 8), 608_350),
    (Geometry::new(512, 17, 4), 9_999_999),
    (Geometry::new(4096, 8, 8), MOST_RECORDS),
    (Geometry::new(600, 64, 8), 3_000_000),
    (Geometry::new(44, 8, 8), 10_793_656),
    (Geometry::new(44, 8, 8), MOST_RECORDS),
    (Geometry::new(40, 8, 8), MOST_RECORDS),
    (Geometry::new(30, 1, 2), 12_345_678),
    (Geometry::new(26, 2, 2), MOST_RECORDS - 1),
    (Geometry::new(100, 5, 4), MOST_RECORDS),
];

/// The geometries of the grid, the good offset sizes by turns: counts at every boundary, and others
/// up to the most and above.
pub fn on_the_grid(to: &mut Comparison, random: &mut Random) -> Held {
    let mut turn = 0;
    for node_size in grid::node_sizes() {
        for record_size in grid::record_sizes() {
            let geometry = Geometry::new(node_size, record_size, grid::FIELD_SIZES[turn % 3]);
            turn += 1;
            for count in grid::boundaries(geometry) {
                to.hold("boundaries", &Planning::new(count, geometry))?;
            }
            let any = random.any_magnitude(MOST_RECORDS);
            to.hold("any count", &Planning::new(any, geometry))?;
            let above = MOST_RECORDS + random.any_magnitude(u64::MAX - MOST_RECORDS);
            to.hold("the most and above", &Planning::new(above, geometry))?;
        }
    }
    Ok(())
}

/// Any numbers at all, so that several causes of refusal meet.
pub fn of_any_numbers(to: &mut Comparison, random: &mut Random) -> Held {
    for _ in 0..RANDOM {
        let mut geometry = grid::any_geometry(random);
        geometry.node_size >>= 8 * random.up_to(2);
        let most = [MOST_RECORDS, MOST_RECORDS, u64::MAX][random.up_to(2) as usize];
        let count = random.any_magnitude(most);
        to.hold("any numbers", &Planning::new(count, geometry))?;
    }
    Ok(())
}

/// Node sizes outside the limits.
pub fn of_other_node_sizes(to: &mut Comparison, _: &mut Random) -> Held {
    for node_size in grid::other_node_sizes() {
        for offset_size in 0..=u8::MAX {
            for record_size in grid::record_sizes() {
                let geometry = Geometry::new(node_size, record_size, offset_size);
                to.hold("other node sizes", &Planning::new(1, geometry))?;
            }
        }
    }
    Ok(())
}

/// Trees of up to the most records, built by the Rust too.
pub fn of_many_records(to: &mut Comparison, _: &mut Random) -> Held {
    for (geometry, record_count) in LARGE {
        let large = Planning {
            record_count,
            geometry,
            ask_rust: true,
        };
        to.hold("large", &large)?;
    }
    Ok(())
}

/// A plan. The Rust, which builds every node, can be left out.
pub struct Planning {
    pub record_count: u64,
    pub geometry: Geometry,
    pub ask_rust: bool,
}

impl Planning {
    fn new(record_count: u64, geometry: Geometry) -> Planning {
        Planning {
            record_count,
            geometry,
            ask_rust: record_count <= RUST_LIMIT,
        }
    }
}

impl fmt::Display for Planning {
    fn fmt(&self, to: &mut fmt::Formatter) -> fmt::Result {
        write!(
            to,
            "plan of {} records at {}",
            self.record_count, self.geometry
        )
    }
}

impl Case for Planning {
    type Answer = [u64; 5];
    type Lent = [Vec<u8>; 0];

    fn lend(&self) -> Self::Lent {
        []
    }

    fn rattle(&self, _: &mut Self::Lent) -> Self::Answer {
        raw::plan(
            self.record_count,
            self.geometry.record_size,
            self.geometry.node_size,
            self.geometry.offset_size,
        )
    }

    fn typed(&self, _: &mut Self::Lent) -> Self::Answer {
        let plan = typed::geometry(self.geometry).plan(self.record_count);
        array(plan.map(typed::figures))
    }

    fn model(&self, _: &mut Self::Lent) -> Self::Answer {
        array(model::plan(self.record_count, self.geometry).map(|plan| plan.figures()))
    }

    /// Where 10 or 11 refuses, the Rust says only that there is none; where another number does, it
    /// is not asked.
    fn hold_to_rust(&self, ours: &Self::Answer, _: &Self::Lent) -> Option<Held> {
        (self.ask_rust && matches!(ours[0], 0 | 10 | 11)).then(|| {
            let accepted = (ours[0] == 0).then_some(*ours);
            let theirs = rust::plan(self.record_count, self.geometry);
            same(accepted, theirs, "the Rust", || self.to_string())
        })
    }

    fn faults() -> Vec<Fault<Self>> {
        vec![
            Fault::<Self>::both("one leaf too many", |plan, answer, _| {
                answer[3] += u64::from(answer[0] == 0 && plan.record_count == 101);
            }),
            Fault::<Self>::both("a thin tree accepted", |plan, answer, _| {
                if answer[0] == 11 && plan.record_count == 2 {
                    *answer = [0, 1, 2, 1, 2 * u64::from(plan.geometry.node_size)];
                }
            }),
            Fault::<Self>::model_alone("the level of an empty leaf", |_, answer, _| {
                if answer[..2] == [10, 0] {
                    answer[1] = 1;
                }
            }),
            Fault::<Self>::model_alone("10 for 11", |_, answer, _| {
                if answer[0] == 11 {
                    answer[0] = 10;
                }
            }),
        ]
    }
}
