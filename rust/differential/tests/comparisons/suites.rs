//! The suites: each call of the Rattle libraries held to the model, to the crate's types and to the
//! Rust, as the table of calls says.

use std::thread;

use differential::calls::{Part, CALLS};
use differential::compare::Comparison;
use differential::report::{rust_is_there, say};

const SEED: u64 = 0x0bad_5eed_0000_0002;

/// Runs families of cases of one call; every one of the refusals and outcomes has to be met.
fn suite(name: &'static str, parts: &[Part], refusals: &[u64], outcomes: &[&'static str]) {
    let mut comparison = Comparison::new(name);
    if let Err(difference) = comparison.run(parts.iter().map(|part| part.family), SEED) {
        panic!("{name}, seed {SEED:#x}: {difference}");
    }
    say(&format!(
        "{}; all held to the model and to the crate's types; seed {SEED:#x}",
        comparison.tally
    ));
    let missing = comparison.tally.missing(refusals);
    assert!(
        missing.is_empty(),
        "{name}: refusals never met: {missing:?}"
    );
    let missing = comparison.tally.missing_outcomes(outcomes);
    assert!(missing.is_empty(), "{name}: never came: {missing:?}");
}

#[test]
fn of_every_call() {
    rust_is_there();
    thread::scope(|scope| {
        for call in CALLS {
            scope.spawn(|| suite(call.name, call.suite, call.refusals, call.outcomes));
        }
    });
}

#[test]
fn of_large_cases() {
    for call in CALLS.iter().filter(|call| !call.large.is_empty()) {
        suite(call.name, call.large, call.large_refusals, &[]);
    }
}
