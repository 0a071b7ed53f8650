//! The calls: what each suite compares, and the cases of each call in a module of its own.

mod based;
mod case;
pub mod collect;
pub mod find;
pub mod leaf_record;
pub mod node_info;
pub mod parse;
pub mod plan;
pub mod record_read;
pub mod record_write;
pub mod typed;
pub mod write;

use crate::compare::{records, Family};
use case::WITHIN_LEAF_CHECKSUM;
pub use case::{By, Case, Fault, ShownBy};

/// A call, and what its suite is made of.
pub struct Call {
    /// The C function's name behind `btree_v2_`, without the `_at` of one that takes a base.
    pub name: &'static str,
    /// The numbers of the refusals that the call can give; the suite has to meet each.
    pub refusals: &'static [u64],
    /// What else its answers can come to ([`Case::outcome`]); the suite has to meet each.
    pub outcomes: &'static [&'static str],
    /// The families of cases of the suite.
    pub suite: &'static [Part],
    /// Families of few and large cases, a suite of their own, and the refusals that it has to meet.
    pub large: &'static [Part],
    pub large_refusals: &'static [u64],
    /// Faults that the suite has to notice: their names, and who shows them.
    pub faults: fn() -> Vec<(&'static str, ShownBy)>,
}

/// A family of cases, and what it is run for beside the suite.
#[derive(Clone, Copy)]
pub struct Part {
    pub name: &'static str,
    pub family: Family,
    /// Its cases change with the seed, so the soak runs it.
    pub soaks: bool,
    /// It is run to see that faults are noticed.
    pub notices: bool,
}

const fn part(name: &'static str, family: Family) -> Part {
    Part {
        name,
        family,
        soaks: false,
        notices: false,
    }
}

impl Part {
    const fn soaks(self) -> Part {
        Part {
            soaks: true,
            ..self
        }
    }

    const fn notices(self) -> Part {
        Part {
            notices: true,
            ..self
        }
    }
}

/// Every call. A suite holds each case to the model, to the types of the crate nuldrafon, and to
/// the Rust where that has an answer.
pub static CALLS: &[Call] = &[
    Call {
        name: "node_info",
        refusals: &[16],
        outcomes: &[],
        suite: &[
            part("grid-tables", node_info::on_the_grid).notices(),
            part("tables", node_info::of_any_numbers).soaks(),
        ],
        large: &[],
        large_refusals: &[],
        faults: case::faults::<node_info::Table>,
    },
    Call {
        name: "plan",
        refusals: &[4, 7, 8, 9, 10, 11],
        outcomes: &[],
        suite: &[
            part("grid-plans", plan::on_the_grid).notices(),
            part("plans", plan::of_any_numbers).soaks().notices(),
            part("other-plans", plan::of_other_node_sizes),
        ],
        large: &[part("large-plans", plan::of_many_records)],
        large_refusals: &[],
        faults: case::faults::<plan::Planning>,
    },
    Call {
        name: "write",
        refusals: &[4, 5, 7, 8, 9, 10, 11, 12, 13, 14, 15],
        outcomes: &[],
        suite: &[
            part("boundaries", write::at_the_boundaries)
                .soaks()
                .notices(),
            part("writes", write::on_the_grid).soaks().notices(),
            part("types", write::of_every_type_and_field_size),
            part("faults", write::with_several_faults).soaks(),
        ],
        large: &[part("large-writes", write::of_many_records)],
        large_refusals: &[],
        faults: case::faults::<write::Draft>,
    },
    Call {
        name: "parse",
        refusals: &[1, 2, 3, 4, 5, 6, 18],
        outcomes: &[],
        suite: &[
            part("block-headers", parse::behind_blocks)
                .soaks()
                .notices(),
            part("header-bases", parse::at_every_base),
            part("headers", parse::as_written).soaks(),
            part("cut-headers", parse::cut_or_elsewhere).notices(),
            part("damaged-headers", parse::damaged).soaks().notices(),
            part("any-headers", parse::any_bytes).soaks(),
        ],
        large: &[],
        large_refusals: &[],
        faults: case::faults::<parse::Parsing>,
    },
    Call {
        name: "collect",
        refusals: &[1, 2, 4, 6, 8, 15, 16, 18],
        outcomes: &[WITHIN_LEAF_CHECKSUM],
        suite: &[
            part("block-trees", collect::behind_blocks)
                .soaks()
                .notices(),
            part("tree-causes", collect::with_several_causes).notices(),
            part("tree-bases", collect::at_every_base),
            part("written-trees", collect::as_written).notices(),
            part("trees", collect::of_any_geometry).soaks(),
            part("cut-trees", collect::cut).soaks(),
            part("leaf-ends", collect::ending_in_a_leaf)
                .soaks()
                .notices(),
            part("damaged-trees", collect::damaged).soaks().notices(),
            part("made-up", collect::with_made_up_headers).soaks(),
            part("graphs", collect::of_random_graphs).soaks().notices(),
        ],
        large: &[part("large-trees", collect::of_many_records).soaks()],
        large_refusals: &[1, 6, 15],
        faults: case::faults::<collect::Collecting>,
    },
    Call {
        name: "leaf_record",
        refusals: &[1, 2, 6, 8, 15, 18],
        outcomes: &[WITHIN_LEAF_CHECKSUM],
        suite: &[
            part("block-leaves", leaf_record::behind_blocks)
                .soaks()
                .notices(),
            part("leaf-bases", leaf_record::at_every_base),
            part("written-leaves", leaf_record::as_written).notices(),
            part("leaves", leaf_record::of_any_geometry).soaks(),
            part("cut-leaves", leaf_record::cut).soaks().notices(),
            part("damaged-leaves", leaf_record::damaged).soaks(),
            part("made-up-leaves", leaf_record::with_made_up_numbers)
                .soaks()
                .notices(),
            part("large-leaves", leaf_record::of_many_bytes).soaks(),
        ],
        large: &[],
        large_refusals: &[],
        faults: case::faults::<leaf_record::Look>,
    },
    Call {
        name: "find",
        refusals: &[1, 2, 4, 6, 8, 16, 17, 18],
        outcomes: &["found", "not found", "empty", WITHIN_LEAF_CHECKSUM],
        suite: &[
            part("block-keys", find::behind_blocks).soaks().notices(),
            part("key-bases", find::at_every_base),
            part("written-keys", find::as_written).notices(),
            part("key-fields", find::at_the_limits_of_fields).notices(),
            part("keys", find::of_any_geometry).soaks(),
            part("cut-keys", find::cut).soaks(),
            part("key-ends", find::ending_in_a_leaf).soaks().notices(),
            part("damaged-keys", find::damaged).soaks(),
            part("made-up-keys", find::with_made_up_headers)
                .soaks()
                .notices(),
            part("several-causes", find::with_several_causes).notices(),
            part("key-graphs", find::of_random_graphs).soaks().notices(),
        ],
        large: &[part("large-keys", find::of_many_records).soaks()],
        large_refusals: &[1, 6],
        faults: case::faults::<find::Finding>,
    },
    Call {
        name: "record_read",
        refusals: &[19, 20],
        outcomes: &records::NAMES,
        suite: &[
            part("record-lengths", record_read::of_every_type_and_length).notices(),
            part("record-bytes", record_read::of_every_byte).notices(),
            part("long-records", record_read::of_long_records).notices(),
            part("any-records", record_read::of_any_bytes).soaks(),
        ],
        large: &[],
        large_refusals: &[],
        faults: case::faults::<record_read::RecordReading>,
    },
    Call {
        name: "record_write",
        refusals: &[15, 19, 20],
        outcomes: &records::NAMES,
        suite: &[
            part("value-limits", record_write::at_the_limits_of_fields).notices(),
            part("value-combinations", record_write::with_values_combined).notices(),
            part("value-causes", record_write::with_several_causes).notices(),
            part("long-outputs", record_write::into_long_outputs).notices(),
            part("any-values", record_write::of_any_values).soaks(),
        ],
        large: &[],
        large_refusals: &[],
        faults: case::faults::<record_write::RecordDraft>,
    },
];

/// Every part of every call.
pub fn parts() -> impl Iterator<Item = (&'static Call, Part)> {
    CALLS.iter().flat_map(|call| {
        let parts = call.suite.iter().chain(call.large);
        parts.map(move |&part| (call, part))
    })
}
