//! A borrowed look at one leaf.

use std::slice::ChunksExact;

use crate::raw;
use crate::refusal::{accepted, Refusal};

/// The bytes of a node before its records.
const FRONT: usize = 6;

/// The records of one leaf, borrowed from the file.
///
/// ```
/// use nuldrafon::{Geometry, LeafView, Refusal, WriteRequest};
/// let request = WriteRequest::new(5, Geometry::new(40, 8, 8), 8, 0, b"record 0record 1");
/// let file = request.write_to_vec()?.image;
/// let leaf = LeafView::new(&file, 0, 2, 8)?;
/// assert_eq!(leaf.record(1), Some(&b"record 1"[..]));
/// assert_eq!(leaf.record(2), None);
/// assert!(leaf.records().eq([b"record 0", b"record 1"]));
///
/// // A copy that stopped short has the records, and not all of the checksum.
/// let (expected, available) = (26, 25);
/// let short = LeafView::new(&file[..25], 0, 2, 8);
/// assert_eq!(short, Err(Refusal::UnexpectedEof { expected, available }));
/// # Ok::<(), Refusal>(())
/// ```
#[derive(Debug, Clone, Copy, PartialEq, Eq, Hash)]
pub struct LeafView<'a> {
    /// The records end to end.
    bytes: &'a [u8],
    /// Not 0.
    record_size: usize,
}

impl<'a> LeafView<'a> {
    /// The leaf at `address` of the file, which has `count` records of this size. The leaf is
    /// tested as in collecting, once; to hand out records takes no more tests.
    ///
    /// Refused by [`Refusal::ZeroRecordSize`], then by the first test that fails from the front of
    /// the leaf to its end, by one of [`Refusal::UnexpectedEof`],
    /// [`Refusal::InvalidBTreeV2Signature`], [`Refusal::ChecksumMismatch`]. The four bytes of the
    /// checksum have to be there, too.
    pub fn new(
        file: &'a [u8],
        address: u64,
        count: u16,
        record_size: u16,
    ) -> Result<LeafView<'a>, Refusal> {
        LeafView::new_at(file, 0, address, count, record_size)
    }

    /// The leaf at `address` of the part of the file from `base` on: a look at a file with a block
    /// of so many bytes in front.
    ///
    /// Refused by [`Refusal::BaseBeyondFile`], then as [`new`](Self::new) is.
    ///
    /// ```
    /// use nuldrafon::{Geometry, LeafView, Refusal, WriteRequest};
    /// let request = WriteRequest::new(5, Geometry::new(40, 8, 8), 8, 0, b"record 0record 1");
    /// let file = [b"notes", &request.write_to_vec()?.image[..]].concat();
    /// let leaf = LeafView::new_at(&file, 5, 0, 2, 8)?;
    /// assert_eq!(leaf.record(1), Some(&b"record 1"[..]));
    /// assert_eq!(LeafView::new_at(&file, 46, 0, 2, 8), Err(Refusal::BaseBeyondFile));
    /// # Ok::<(), Refusal>(())
    /// ```
    pub fn new_at(
        file: &'a [u8],
        base: u64,
        address: u64,
        count: u16,
        record_size: u16,
    ) -> Result<LeafView<'a>, Refusal> {
        // The last index there is has no record, so no output is needed.
        accepted(&raw::leaf_record_at(
            file,
            base,
            address,
            count,
            record_size,
            u64::MAX,
            &mut [],
        ))?;
        let record_size = usize::from(record_size);
        let from = (address as usize).saturating_add(FRONT);
        let to = from.saturating_add(usize::from(count) * record_size);
        // An accepted leaf's records are in this part of the file.
        let part = file.get(base as usize..).ok_or(Refusal::BaseBeyondFile)?;
        let bytes = part.get(from..to).ok_or(Refusal::UnexpectedEof {
            expected: to as u64,
            available: part.len() as u64,
        })?;
        Ok(LeafView { bytes, record_size })
    }

    /// How many records the leaf has.
    pub fn len(&self) -> usize {
        self.bytes.len() / self.record_size
    }

    /// Whether the leaf has no records.
    pub fn is_empty(&self) -> bool {
        self.bytes.is_empty()
    }

    /// A record of the leaf, the first at 0; none where there is none at `index`.
    pub fn record(&self, index: usize) -> Option<&'a [u8]> {
        self.records().nth(index)
    }

    /// The records in order.
    pub fn records(&self) -> ChunksExact<'a, u8> {
        self.bytes.chunks_exact(self.record_size)
    }

    /// The records end to end.
    pub fn as_bytes(&self) -> &'a [u8] {
        self.bytes
    }
}

impl<'a> IntoIterator for LeafView<'a> {
    type Item = &'a [u8];
    type IntoIter = ChunksExact<'a, u8>;

    fn into_iter(self) -> ChunksExact<'a, u8> {
        self.records()
    }
}
