//! The inputs of the tables: node sizes from 64 to 65,536, up to the most records.

use differential::model::{self, Geometry, Plan, MOST_RECORDS};

use crate::timing::grouped;

/// What names an input in a table.
pub const INPUT: [&str; 3] = ["NS/RS/OW", "records", "depth"];

const SMALL: Geometry = Geometry::new(64, 11, 8);
pub const USUAL: Geometry = Geometry::new(512, 11, 8);
const PAGE: Geometry = Geometry::new(4_096, 24, 8);
pub const LARGE: Geometry = Geometry::new(65_536, 24, 8);
const FEW: &[u64] = &[1_000, 100_000, 1_000_000, MOST_RECORDS];
const MORE: &[u64] = &[1_000, 100_000, 1_000_000, 5_000_000, MOST_RECORDS];
const SOUGHT: &[u64] = &[1_000, 100_000, 5_000_000];
/// Two records in a leaf and one in a node, the deepest trees; the first count takes most calls.
const DEEP: Geometry = Geometry::new(44, 8, 8);
const DEEPEST: &[u64] = &[10_793_656, MOST_RECORDS];

/// A tree of so many records.
pub struct Case {
    pub geometry: Geometry,
    pub record_count: u64,
    pub plan: Plan,
}

impl Case {
    pub fn new(geometry: Geometry, record_count: u64) -> Case {
        Case {
            geometry,
            record_count,
            plan: model::plan(record_count, geometry).expect("the tree is planned"),
        }
    }

    pub fn input(&self) -> Vec<String> {
        vec![
            self.geometry.to_string(),
            grouped(self.record_count as f64),
            self.plan.depth.to_string(),
        ]
    }
}

/// The trees that are written and read.
pub fn trees() -> impl Iterator<Item = Case> {
    [(SMALL, FEW), (USUAL, MORE), (PAGE, FEW), (LARGE, MORE)]
        .into_iter()
        .flat_map(of)
}

/// The trees that are planned: the deepest ones, too.
pub fn plans() -> impl Iterator<Item = Case> {
    trees().chain(of((DEEP, DEEPEST)))
}

/// The trees in which records are found.
pub fn finds() -> impl Iterator<Item = Case> {
    [(SMALL, &SOUGHT[1..2]), (USUAL, SOUGHT), (LARGE, SOUGHT)]
        .into_iter()
        .flat_map(of)
}

/// The trees that are read behind a block.
pub fn behind_a_block() -> impl Iterator<Item = Case> {
    [(SMALL, &FEW[1..2]), (USUAL, &FEW[..3]), (LARGE, &FEW[..2])]
        .into_iter()
        .flat_map(of)
}

fn of((geometry, counts): (Geometry, &'static [u64])) -> impl Iterator<Item = Case> {
    counts.iter().map(move |&count| Case::new(geometry, count))
}
