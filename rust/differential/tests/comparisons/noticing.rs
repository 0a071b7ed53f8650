//! The comparisons themselves: each of them notices a checksum that is wrong at one place.

use differential::checksum::{
    equal_bytes, lengths_and_alignments, random_lengths, single_bits, Outcome, Sum, LENGTHS,
    LONGEST,
};
use differential::report::say;
use differential::stored::checksum as stored;

const RIGHT: Sum = nuldrafon::jenkins_lookup3;

/// The checksum, but with one bit turned where `wrong` says so.
fn turned(data: &[u8], wrong: bool) -> u32 {
    RIGHT(data) ^ u32::from(wrong)
}

fn notices(name: &str, right: Outcome, wrong: Outcome) {
    assert!(right.is_ok(), "{name}: {right:?}");
    assert!(wrong.is_err(), "{name} did not notice a wrong checksum");
}

#[test]
fn wrong_checksums() {
    let long: Sum = |data| turned(data, data.len() == LENGTHS);
    let run = |sum| lengths_and_alignments(sum, RIGHT, 1);
    notices("lengths_and_alignments", run(RIGHT), run(long));

    let longest: Sum = |data| turned(data, data.len() == LONGEST);
    let run = |sum| random_lengths(sum, RIGHT, 1, 9);
    notices("random_lengths", run(RIGHT), run(longest));

    let full: Sum = |data| turned(data, data == [0xff; 12]);
    let run = |sum| equal_bytes(sum, RIGHT, &[0x00, 0xff]);
    notices("equal_bytes", run(RIGHT), run(full));

    let top: Sum = |data| turned(data, data == [0, 0, 0x80]);
    let run = |sum| single_bits(sum, RIGHT, 3);
    notices("single_bits", run(RIGHT), run(top));

    let last: Sum = |data| turned(data, data.len() == stored::LAST);
    notices("the stored list", stored::hold(RIGHT), stored::hold(last));
    say("each comparison of checksums notices one wrong answer");
}
