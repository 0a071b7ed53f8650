//! The checksum of the Rattle library held to the Rust, to the stored list and to published values.

use differential::checksum::{
    equal_bytes, lengths_and_alignments, random_lengths, single_bits, Outcome, Sum, ALIGNMENTS,
    LENGTHS, LONGEST, PUBLISHED,
};
use differential::report::{rust_is_there, say, with_rust};
use differential::stored::checksum as stored;

const OURS: Sum = nuldrafon::jenkins_lookup3;
const SEED: u64 = 0x0bad_5eed_0000_0001;
const RANDOM: usize = 500;
const VALUES: [u8; 8] = [0x00, 0xff, 0x01, 0x55, 0x7f, 0x80, 0xaa, 0xfe];
const BITS: usize = 40;

/// Says what was compared, or fails with the first difference.
fn settle(outcome: Outcome, with: &str, inputs: &str) {
    match outcome {
        Ok(agreed) => say(&format!("checksum = {with}: {inputs}: {agreed} inputs")),
        Err(difference) => panic!("checksum differs from {with}: {difference}"),
    }
}

/// Holds the library to the Rust over one family of inputs, where the Rust is there.
fn hold_to_rust(inputs: &str, compare: impl Fn(Sum, Sum) -> Outcome) {
    if rust_is_there() {
        settle(compare(OURS, oracle::jenkins_lookup3), "the Rust", inputs);
    }
}

#[test]
fn lengths() {
    hold_to_rust(
        &format!("lengths 0 to {LENGTHS}, {ALIGNMENTS} alignments, seed {SEED:#x}"),
        |ours, theirs| lengths_and_alignments(ours, theirs, SEED),
    );
}

#[test]
fn random() {
    hold_to_rust(
        &format!("random lengths up to {LONGEST}, seed {SEED:#x}"),
        |ours, theirs| random_lengths(ours, theirs, SEED, RANDOM),
    );
}

#[test]
fn equal() {
    hold_to_rust(
        &format!("equal bytes {VALUES:02x?}, lengths 0 to {LENGTHS} and up to {LONGEST}"),
        |ours, theirs| equal_bytes(ours, theirs, &VALUES),
    );
}

#[test]
fn bits() {
    hold_to_rust(
        &format!("one bit set, lengths 0 to {BITS}"),
        |ours, theirs| single_bits(ours, theirs, BITS),
    );
}

#[test]
fn stored_list() {
    let inputs = format!("lengths 0 to {}", stored::LAST);
    settle(stored::hold(OURS), "the stored list", &inputs);
}

#[test]
fn stored_list_is_the_rusts() {
    with_rust("the Rust gives the stored list of checksums", || {
        stored::hold(oracle::jenkins_lookup3).expect("the Rust gives the stored list");
    });
}

#[test]
fn published_values() {
    for (data, sum) in PUBLISHED {
        assert_eq!(OURS(data), sum, "published value of {data:?}");
    }
    say("checksum = the published values");
}
