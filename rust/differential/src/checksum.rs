//! Two checksum functions held to each other over families of inputs.

use crate::random::Random;

/// A checksum function.
pub type Sum = fn(&[u8]) -> u32;

/// The published values of lookup3 with start value 0.
pub const PUBLISHED: [(&[u8], u32); 2] = [
    (b"", 0xdead_beef),
    (b"Four score and seven years ago", 0x1777_0551),
];

/// Every length from 0 to this is tried.
pub const LENGTHS: usize = 300;
/// Every alignment below this is tried.
pub const ALIGNMENTS: usize = 16;
/// Random lengths go up to this.
pub const LONGEST: usize = 1 << 20;

/// How many inputs two functions agreed on, or the first one where they differ.
pub type Outcome = Result<usize, String>;

/// The two functions, and the inputs that they agreed on so far.
struct Pair {
    ours: Sum,
    theirs: Sum,
    agreed: usize,
}

impl Pair {
    fn new(ours: Sum, theirs: Sum) -> Pair {
        Pair {
            ours,
            theirs,
            agreed: 0,
        }
    }

    fn hold(&mut self, data: &[u8], input: impl Fn() -> String) -> Result<(), String> {
        let (ours, theirs) = ((self.ours)(data), (self.theirs)(data));
        if ours != theirs {
            return Err(format!(
                "{} of length {}: {ours:#010x}, and not {theirs:#010x}",
                input(),
                data.len()
            ));
        }
        self.agreed += 1;
        Ok(())
    }
}

/// Every length up to [`LENGTHS`] at every alignment below [`ALIGNMENTS`], amid other bytes.
pub fn lengths_and_alignments(ours: Sum, theirs: Sum, seed: u64) -> Outcome {
    let buffer = Random::new(seed).bytes(LENGTHS + 3 * ALIGNMENTS);
    let aligned = buffer.as_ptr().align_offset(ALIGNMENTS);
    let mut pair = Pair::new(ours, theirs);
    for shift in 0..ALIGNMENTS {
        let from = &buffer[aligned + shift..];
        for length in 0..=LENGTHS {
            pair.hold(&from[..length], || {
                format!("random bytes at alignment {shift}")
            })?;
        }
    }
    Ok(pair.agreed)
}

/// `count` parts of a buffer of [`LONGEST`] random bytes: the whole, then random places and lengths,
/// by turns of any magnitude and spread evenly.
pub fn random_lengths(ours: Sum, theirs: Sum, seed: u64, count: usize) -> Outcome {
    let mut random = Random::new(seed);
    let buffer = random.bytes(LONGEST);
    let mut pair = Pair::new(ours, theirs);
    pair.hold(&buffer, || "random bytes".to_string())?;
    for turn in 1..count {
        let magnitude = if turn % 2 == 0 { 0 } else { random.up_to(20) };
        let length = random.up_to(LONGEST as u64 >> magnitude) as usize;
        let start = random.up_to((LONGEST - length) as u64) as usize;
        pair.hold(&buffer[start..start + length], || {
            format!("random bytes from {start}")
        })?;
    }
    Ok(pair.agreed)
}

/// Buffers whose bytes are all one value: every length up to [`LENGTHS`], and two long ones.
pub fn equal_bytes(ours: Sum, theirs: Sum, values: &[u8]) -> Outcome {
    let mut pair = Pair::new(ours, theirs);
    for &value in values {
        let buffer = vec![value; LONGEST];
        for length in (0..=LENGTHS).chain([LONGEST / 16, LONGEST]) {
            pair.hold(&buffer[..length], || format!("bytes {value:#04x}"))?;
        }
    }
    Ok(pair.agreed)
}

/// Zeros with one bit set, each bit in turn, for every length up to `longest`.
pub fn single_bits(ours: Sum, theirs: Sum, longest: usize) -> Outcome {
    let mut pair = Pair::new(ours, theirs);
    let mut buffer = vec![0; longest];
    for length in 0..=longest {
        for bit in 0..8 * length {
            buffer[bit / 8] = 1 << (bit % 8);
            pair.hold(&buffer[..length], || format!("zeros but for bit {bit}"))?;
            buffer[bit / 8] = 0;
        }
    }
    Ok(pair.agreed)
}
