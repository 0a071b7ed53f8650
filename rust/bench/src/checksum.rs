//! The checksum: Rattle, the Rust and plain C on the same bytes.

use std::hint::black_box;

use differential::random::Random;

use crate::timing::{grouped, Contender, Section};

const SIZES: [usize; 7] = [4, 12, 16, 64, 512, 65_536, 16 << 20];

extern "C" {
    fn bench_c_lookup3(data: *const u8, length: usize) -> u32;
}

/// The checksum by lookup3.c.
#[inline]
fn plain_c(data: &[u8]) -> u32 {
    // SAFETY: the function only reads the slice that is lent to it.
    unsafe { bench_c_lookup3(data.as_ptr(), data.len()) }
}

/// Every call goes over a boundary that is not inlined: Rattle and C by their archives, the Rust by
/// its mark in the oracle.
pub fn run() {
    let bytes = Random::new(1).bytes(SIZES[SIZES.len() - 1]);
    let mut section = Section::new("lookup3, nanoseconds a call", &["bytes"]);
    for size in SIZES {
        let data = &bytes[..size];
        let mut contenders = vec![
            Contender::new("Rattle", || nuldrafon::jenkins_lookup3(black_box(data))),
            Contender::new("C", || plain_c(black_box(data))),
        ];
        if oracle::AVAILABLE {
            contenders.push(Contender::new("Rust", || {
                oracle::jenkins_lookup3(black_box(data))
            }));
        }
        section.row(&[grouped(size as f64)], 1, contenders);
    }
}

#[cfg(test)]
mod tests {
    use differential::checksum::{lengths_and_alignments, random_lengths};

    #[test]
    fn plain_c_gives_the_same() {
        let seed = 1;
        let lengths = lengths_and_alignments(nuldrafon::jenkins_lookup3, super::plain_c, seed);
        let random = random_lengths(nuldrafon::jenkins_lookup3, super::plain_c, seed, 50);
        let agreed = lengths.expect("the same") + random.expect("the same");
        differential::report::say(&format!("checksum = plain C: {agreed} inputs, seed {seed}"));
    }
}
