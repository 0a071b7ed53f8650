//! Comparisons of the port with the Rust and with a second implementation, and what they share:
//! inputs, stored answers, reports.

pub mod calls;
pub mod checksum;
pub mod compare;
pub mod inputs;
pub mod model;
pub mod moments;
pub mod random;
pub mod report;
pub mod stored;
