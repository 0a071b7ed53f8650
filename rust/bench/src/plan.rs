//! The planner: Rattle, and the Rust, which builds every node, on the same numbers.

use std::hint::black_box;

use differential::calls::typed;
use differential::compare::rust;

use crate::cases::{plans, INPUT};
use crate::timing::{Contender, Section};

pub fn run() {
    let mut section = Section::new("Plan, nanoseconds a call", &INPUT);
    for case in plans() {
        let (count, geometry) = (case.record_count, case.geometry);
        let mut contenders = vec![Contender::new("Rattle", move || {
            typed::geometry(geometry).plan(black_box(count))
        })];
        if oracle::AVAILABLE {
            contenders.push(Contender::new("Rust", move || {
                rust::plan(black_box(count), geometry)
            }));
        }
        section.row(&case.input(), 1, contenders);
    }
}
