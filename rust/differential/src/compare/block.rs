//! Blocks in front of a file's HDF5 part, and bases.

use crate::inputs::Tree;
use crate::random::Random;

/// The most bytes of a block.
const LONGEST: u64 = 200;

/// Puts a block in front of a file; the tree in it gets the base.
pub fn put_in_front(file: &mut Vec<u8>, tree: &mut Tree, random: &mut Random) {
    let block = any(random);
    tree.base = block.len() as u64;
    file.splice(..0, block);
}

/// Any bytes, at times with the front of a header or a node before them.
fn any(random: &mut Random) -> Vec<u8> {
    let length = 1 + random.any_magnitude(LONGEST - 1) as usize;
    let mut block = random.bytes(length);
    let front = [b"BTHD\0\x05", b"BTLF\0\x05", b"BTIN\0\x05"][random.up_to(2) as usize];
    match block.get_mut(..front.len()) {
        Some(place) if random.up_to(1) == 0 => place.copy_from_slice(front),
        _ => {}
    }
    block
}

/// Every base from 0 to one beyond a file of this length, and huge ones.
pub fn every(length: usize) -> impl Iterator<Item = u64> {
    let length = length as u64;
    let more = [1 << 32, 1 << 63, u64::MAX - 1];
    (0..=length + 1).chain(huge(length)).chain(more)
}

/// Bases in a file, around its end, and huge ones.
pub fn some(length: usize, random: &mut Random) -> impl Iterator<Item = u64> {
    let length = length as u64;
    let any = [(); 3].map(|()| random.up_to(length));
    let limits = [0, length.saturating_sub(1), length, length + 1];
    any.into_iter().chain(limits).chain(huge(any[0]))
}

/// Huge bases: those that come to one in the file where they are cut to 32 bits, or where a place
/// in the file is added to them modulo 2^64, and the largest.
fn huge(own: u64) -> [u64; 3] {
    [(1 << 32) + own, u64::MAX - own, u64::MAX]
}
