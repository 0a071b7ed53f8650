//! Every comparison of the port with the Rust; each says what it ran.

mod checksum;
mod differences;
mod figures;
mod filling;
mod hostile;
mod noticing;
mod noticing_calls;
mod oracle_figures;
mod readings;
mod stored;
mod suites;
mod typed;
