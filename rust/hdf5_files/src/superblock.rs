//! The superblock of a file: how long the block before it is, the sizes of offsets and lengths, and
//! the file's end.

use crate::bytes::{number, part, same, Fault};

const SIGNATURE: &[u8] = b"\x89HDF\r\n\x1a\n";

/// Where the addresses begin: base, extension, end of file, root group.
const ADDRESSES: usize = 12;

/// The least block that the library takes; each of the others is twice as long as the one before.
const LEAST_BLOCK: usize = 512;

/// The sizes of a file's offsets and lengths, and of the block before its HDF5 part, 0 where there
/// is none.
#[derive(Clone, Copy, Debug, PartialEq, Eq)]
pub struct Sizes {
    pub offset: u8,
    pub length: u8,
    pub block: usize,
}

impl Sizes {
    /// The base that the reading calls take.
    pub fn base(self) -> u64 {
        self.block as u64
    }

    fn address(self, i: usize) -> usize {
        ADDRESSES + i * usize::from(self.offset)
    }
}

/// The place of the superblock, looked for as the library does.
fn block(file: &[u8]) -> Result<usize, Fault> {
    let mut at = 0;
    while at < file.len() {
        if file[at..].starts_with(SIGNATURE) {
            return Ok(at);
        }
        at = LEAST_BLOCK.max(2 * at);
    }
    Err("no superblock".to_string())
}

/// Reads a superblock of version 2 or 3, whose base address is its own place and whose end is the
/// file's, both counted from the file's start.
pub fn read(file: &[u8]) -> Result<Sizes, Fault> {
    let block = block(file)?;
    let hdf5 = &file[block..];
    let fixed = part(hdf5, 0, ADDRESSES)?;
    if !matches!(fixed[8], 2 | 3) {
        return Err(format!("superblock of version {}", fixed[8]));
    }
    let sizes = Sizes {
        offset: fixed[9],
        length: fixed[10],
        block,
    };
    let sum_at = sizes.address(4);
    let sum = number(part(hdf5, sum_at as u64, 4)?);
    let computed = nuldrafon::jenkins_lookup3(&hdf5[..sum_at]);
    same("checksum of the superblock", computed.into(), sum)?;
    let address = |i: usize| number(&hdf5[sizes.address(i)..sizes.address(i + 1)]);
    same("base address", address(0), sizes.base())?;
    same("end of the file", address(2), file.len() as u64)?;
    Ok(sizes)
}

/// Makes the length of the file, of which this is the HDF5 part, its end in the superblock, with the
/// checksum that this takes.
pub fn set_end(hdf5: &mut [u8], sizes: Sizes) {
    let end = (sizes.block + hdf5.len()).to_le_bytes();
    hdf5[sizes.address(2)..sizes.address(3)].copy_from_slice(&end[..sizes.offset.into()]);
    let sum_at = sizes.address(4);
    let sum = nuldrafon::jenkins_lookup3(&hdf5[..sum_at]);
    hdf5[sum_at..sum_at + 4].copy_from_slice(&sum.to_le_bytes());
}
