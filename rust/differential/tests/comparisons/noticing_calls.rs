//! The suites themselves: each notices an answer that is wrong at few places.

use differential::calls::{Call, ShownBy, CALLS};
use differential::compare::Comparison;
use differential::report::{rust_is_there, say};

/// The families of a call notice a fault of it, held to the model or to the Rust alone.
fn noticed(call: &Call, fault: usize, name: &str, by_model: bool) {
    let parts = call.suite.iter().filter(|part| part.notices);
    let families = parts.map(|part| part.family);
    let held = Comparison::of_fault(call.name, fault, by_model).run(families, 1);
    let by = if by_model { "the model" } else { "the Rust" };
    assert!(held.is_err(), "{}: {by} did not show: {name}", call.name);
}

#[test]
fn wrong_answers() {
    let mut faults = 0;
    for call in CALLS {
        let of_call = (call.faults)();
        assert!(!of_call.is_empty(), "{}: no faults are tried", call.name);
        for (fault, (name, shown_by)) in of_call.into_iter().enumerate() {
            noticed(call, fault, name, true);
            if shown_by == ShownBy::Both && rust_is_there() {
                noticed(call, fault, name, false);
            }
            faults += 1;
        }
    }
    say(&format!("the suites notice each of {faults} faults"));
}
