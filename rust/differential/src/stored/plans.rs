//! The stored list of plans.

use super::{array, List};
use crate::calls::plan::Planning;
use crate::calls::By;
use crate::compare::{grid, Comparison, Held};
use crate::model::{Geometry, MOST_RECORDS};
use crate::random::Random;

pub const LIST: List = List {
    name: "plans",
    stored: include_str!("../../stored/plans.txt"),
    text,
    family,
};

const LAYOUT: &str = "\
// Plans: rows of record count, record size, node size, offset size, and the five numbers of the
// answer (0, depth, nodes, leaves, image size; or a refusal's number and values).
";

const GEOMETRIES: [Geometry; 22] = [
    Geometry::new(10, 1, 8),
    Geometry::new(17, 8, 8),
    Geometry::new(26, 8, 8),
    Geometry::new(24, 1, 2),
    Geometry::new(40, 8, 8),
    Geometry::new(40, 8, 2),
    Geometry::new(44, 8, 8),
    Geometry::new(48, 20, 8),
    Geometry::new(100, 5, 4),
    Geometry::new(265, 1, 8),
    Geometry::new(266, 1, 8),
    Geometry::new(512, 11, 8),
    Geometry::new(512, 17, 4),
    Geometry::new(512, 250, 8),
    Geometry::new(4_096, 8, 8),
    Geometry::new(65_536, 1, 8),
    Geometry::new(65_536, 24, 8),
    Geometry::new(65_536, 65_526, 8),
    Geometry::new(9, 8, 8),
    Geometry::new(65_537, 8, 8),
    Geometry::new(40, 0, 8),
    Geometry::new(40, 8, 3),
];

/// The least counts at the boundaries of each geometry, the most records, and more.
fn cases() -> impl Iterator<Item = Planning> {
    GEOMETRIES.into_iter().flat_map(|geometry| {
        let last = [MOST_RECORDS, MOST_RECORDS + 1, u64::MAX];
        let counts = grid::boundaries(geometry).into_iter().take(15);
        counts.chain(last).map(move |record_count| Planning {
            record_count,
            geometry,
            ask_rust: record_count <= 200_000,
        })
    })
}

fn text(by: By) -> String {
    let rows: Vec<Vec<u64>> = cases()
        .map(|case| {
            let geometry = case.geometry;
            let mut row = vec![
                case.record_count,
                geometry.record_size.into(),
                geometry.node_size.into(),
                geometry.offset_size.into(),
            ];
            row.extend(by.answer(&case, &mut []));
            row
        })
        .collect();
    format!("{LAYOUT}{}", array("PLANS", "u64", &rows))
}

fn family(to: &mut Comparison, _: &mut Random) -> Held {
    cases().try_for_each(|case| to.hold("stored", &case))
}
