//! What a run of the comparisons says of itself.

use std::io::Write;
use std::sync::Once;

/// Prints a line that the test harness does not hold back.
pub fn say(line: &str) {
    writeln!(std::io::stdout(), "{line}").expect("standard output can be written");
}

/// Whether the Rust is there to compare with; says so once where it is not.
pub fn rust_is_there() -> bool {
    static SAID: Once = Once::new();
    if !oracle::AVAILABLE {
        SAID.call_once(|| say(oracle::NOT_RUN));
    }
    oracle::AVAILABLE
}

/// Runs a check that needs the Rust, where it is there, and says what was shown.
pub fn with_rust(shown: &str, check: impl FnOnce()) {
    if rust_is_there() {
        check();
        say(shown);
    }
}
