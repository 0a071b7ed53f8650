//! A tree's header, and the records of the tree.

use std::fmt;

use crate::refusal::{accepted, error_with_refusal, Refusal};
use crate::{raw, Geometry};

/// What the header of a tree says, with the offset size that it was read with.
///
/// Calls that come later bring fields of their own. A header that is not read from a file is made
/// from `Header::default()`.
#[derive(Debug, Clone, Copy, Default, PartialEq, Eq, Hash)]
#[non_exhaustive]
pub struct Header {
    /// What the records are: HDF5's number of the kind of tree.
    pub tree_type: u8,
    /// The sizes of nodes, records and addresses.
    pub geometry: Geometry,
    /// The level of the root; 0 where the root is a leaf.
    pub depth: u16,
    /// The address of the root, counted from the base.
    pub root_address: u64,
    /// The records in the root itself.
    pub root_records: u16,
    /// The records in all nodes, as the header has it. Collecting does not compare it.
    pub total_records: u64,
    /// The base that the header was read with: the length of the block in front of the HDF5 part of
    /// the file, 0 where there is none. The tree is read from there on.
    pub base: u64,
}

/// What a collecting read and put out, refused or not. No count goes above 2^64 - 1.
#[derive(Debug, Clone, Copy, Default, PartialEq, Eq, Hash)]
pub struct Counts {
    /// The records that were put out.
    pub records: u64,
    /// The leaves that were read.
    pub leaves: u64,
    /// The internal nodes that were read.
    pub internal_nodes: u64,
    /// Those of the records put out that are from internal nodes.
    pub internal_records: u64,
}

/// The records of a tree in a buffer of their own.
#[derive(Debug, Clone, PartialEq, Eq, Hash)]
pub struct Collected {
    /// The records end to end, in order.
    pub records: Vec<u8>,
    /// How many they are, and from how many nodes.
    pub counts: Counts,
}

/// A refused collecting: why, and what was read and put out before.
///
/// ```
/// use nuldrafon::{Geometry, Header, Refusal};
/// let mut header = Header::default();
/// header.geometry = Geometry::new(40, 8, 8);
/// (header.root_records, header.total_records) = (2, 2);
/// let error = header.collect_to_vec(b"BTLF").unwrap_err();
/// assert_eq!(error.counts.records, 0);
/// assert_eq!(
///     error.to_string(),
///     "after 0 records: the file ends too early: 6 bytes are needed, 4 are there"
/// );
/// // For callers that want the cause alone.
/// assert_eq!(Refusal::from(error).number(), 1);
/// ```
#[derive(Debug, Clone, Copy, PartialEq, Eq, Hash)]
pub struct CollectError {
    /// Why the collecting ended.
    pub refusal: Refusal,
    /// What was read and put out before.
    pub counts: Counts,
}

impl Header {
    /// The bytes of a header for offsets and lengths of these sizes.
    ///
    /// ```
    /// assert_eq!(nuldrafon::Header::size(8, 8), 38);
    /// ```
    pub const fn size(offset_size: u8, length_size: u8) -> usize {
        22 + offset_size as usize + length_size as usize
    }

    /// Reads the header at `offset` of the file, for offsets and lengths of these sizes.
    ///
    /// Refused, by the first test that fails from the front of the header to its end, by one of
    /// [`Refusal::UnexpectedEof`], [`Refusal::InvalidBTreeV2Signature`],
    /// [`Refusal::InvalidBTreeV2Version`], [`Refusal::InvalidOffsetSize`],
    /// [`Refusal::InvalidLengthSize`], [`Refusal::ChecksumMismatch`].
    ///
    /// ```
    /// use nuldrafon::{Geometry, Header, Refusal, WriteRequest};
    /// let geometry = Geometry::new(40, 8, 4);
    /// let file = WriteRequest::new(5, geometry, 2, 9_000, &[7; 32]).write_to_vec()?.header;
    /// let header = Header::parse(&file, 0, 4, 2)?;
    /// assert_eq!((header.tree_type, header.geometry, header.depth), (5, geometry, 1));
    /// assert_eq!((header.root_address, header.root_records), (9_080, 1));
    /// assert_eq!(header.total_records, 4);
    /// let refused = Header::parse(&file[..20], 0, 4, 2).unwrap_err();
    /// assert_eq!(refused, Refusal::UnexpectedEof { expected: 22, available: 20 });
    /// # Ok::<(), Refusal>(())
    /// ```
    #[inline]
    pub fn parse(
        file: &[u8],
        offset: u64,
        offset_size: u8,
        length_size: u8,
    ) -> Result<Header, Refusal> {
        Header::parse_at(file, 0, offset, offset_size, length_size)
    }

    /// Reads the header at `offset` of the part of the file from `base` on: that of a file with a
    /// block of so many bytes in front. The header carries the base to the calls that read its
    /// tree.
    ///
    /// Refused by [`Refusal::BaseBeyondFile`], then as [`parse`](Self::parse) is of this part.
    ///
    /// ```
    /// use nuldrafon::{Geometry, Header, Refusal, WriteRequest};
    /// # fn main() -> Result<(), Box<dyn std::error::Error>> {
    /// let notes = b"site 7, decks 1 to 3";
    /// let records: Vec<u8> = (0..64).collect();
    /// // The header comes first behind the notes, then the nodes. Their addresses do not count the
    /// // notes.
    /// let request = WriteRequest::new(5, Geometry::new(40, 8, 8), 8, 38, &records);
    /// let written = request.write_to_vec()?;
    /// let file = [&notes[..], &written.header, &written.image].concat();
    ///
    /// let header = Header::parse_at(&file, 20, 0, 8, 8)?;
    /// assert_eq!((header.base, header.root_address), (20, 278));
    /// assert_eq!(header.collect_to_vec(&file)?.records, records);
    ///
    /// let beyond = file.len() as u64 + 1;
    /// assert_eq!(Header::parse_at(&file, beyond, 0, 8, 8), Err(Refusal::BaseBeyondFile));
    /// # Ok(())
    /// # }
    /// ```
    #[inline]
    pub fn parse_at(
        file: &[u8],
        base: u64,
        offset: u64,
        offset_size: u8,
        length_size: u8,
    ) -> Result<Header, Refusal> {
        let answer = raw::parse_at(file, base, offset, offset_size, length_size);
        accepted(&answer)?;
        let [_, tree_type, node_size, record_size, depth, root_address, in_root, in_all, base] =
            answer;
        Ok(Header {
            tree_type: tree_type as u8,
            geometry: Geometry::new(node_size as u32, record_size as u16, offset_size),
            depth: depth as u16,
            root_address,
            root_records: in_root as u16,
            total_records: in_all,
            base,
        })
    }

    /// The header's figures in the order of the C functions: tree type, node size, record size,
    /// depth, address of the root, records of the root, records in all. The base is left out.
    ///
    /// ```
    /// use nuldrafon::{Geometry, Header, Refusal, WriteRequest};
    /// let request = WriteRequest::new(5, Geometry::new(40, 8, 8), 8, 4_096, &[7; 32]);
    /// let file = request.write_to_vec()?.header;
    /// let header = Header::parse(&file, 0, 8, 8)?;
    /// assert_eq!(header.figures(), [5, 40, 8, 1, 4_176, 1, 4]);
    /// # Ok::<(), Refusal>(())
    /// ```
    pub fn figures(&self) -> [u64; 7] {
        let [figures @ .., _] = self.figures_at();
        figures
    }

    /// The header's [figures](Self::figures), and the base behind them.
    ///
    /// ```
    /// use nuldrafon::{Geometry, Header, Refusal, WriteRequest};
    /// let request = WriteRequest::new(5, Geometry::new(40, 8, 8), 8, 4_096, &[7; 32]);
    /// let file = [b"notes", &request.write_to_vec()?.header[..]].concat();
    /// let header = Header::parse_at(&file, 5, 0, 8, 8)?;
    /// assert_eq!(header.figures_at(), [5, 40, 8, 1, 4_176, 1, 4, 5]);
    /// # Ok::<(), Refusal>(())
    /// ```
    #[inline]
    pub fn figures_at(&self) -> [u64; 8] {
        [
            self.tree_type.into(),
            self.geometry.node_size.into(),
            self.geometry.record_size.into(),
            self.depth.into(),
            self.root_address,
            self.root_records.into(),
            self.total_records,
            self.base,
        ]
    }

    /// Puts the records of the header's tree end to end to the front of the output, in order. The
    /// output's other bytes stay as they were. The part of the file from the header's base on is
    /// read.
    ///
    /// Where the header's tree was written by this crate and stands whole in the file, an output
    /// of [`total_records`](Self::total_records) times the record size is long enough, and every
    /// record comes out. Of another file the header's record count is not compared, nor are
    /// checksums of internal nodes: [`Counts::records`] tells how many records there were. A leaf is
    /// read only where its checksum is there and right.
    ///
    /// Refused by the first of the tree's nodes that cannot be read:
    /// [`Refusal::UnexpectedEof`], [`Refusal::InvalidBTreeV2Signature`],
    /// [`Refusal::InvalidOffsetSize`], [`Refusal::ChecksumMismatch`]; by
    /// [`Refusal::OutputTooShort`] where the next record does not fit; and before anything is
    /// read by [`Refusal::BaseBeyondFile`], where the tree is empty, too, and by
    /// [`Refusal::ZeroRecordSize`] and [`Refusal::DepthAboveLimit`]. The records before the
    /// refusal are in the output, and the error counts them.
    ///
    /// ```
    /// use nuldrafon::{Geometry, Header, Refusal, WriteRequest};
    /// # fn main() -> Result<(), Box<dyn std::error::Error>> {
    /// let records: Vec<u8> = (0..64).collect();
    /// let request = WriteRequest::new(5, Geometry::new(40, 8, 8), 8, 38, &records);
    /// let written = request.write_to_vec()?;
    /// let file = [written.header, written.image].concat();
    /// let header = Header::parse(&file, 0, 8, 8)?;
    ///
    /// let mut output = [0; 100];
    /// let counts = header.collect(&file, &mut output)?;
    /// assert_eq!((counts.records, counts.leaves, counts.internal_nodes), (8, 4, 3));
    /// assert_eq!(output[..64], records);
    ///
    /// let refused = header.collect(&file, &mut output[..20]).unwrap_err();
    /// assert_eq!(refused.refusal, Refusal::OutputTooShort(20));
    /// assert_eq!(refused.counts.records, 2);
    /// # Ok(())
    /// # }
    /// ```
    #[inline]
    pub fn collect(&self, file: &[u8], output: &mut [u8]) -> Result<Counts, CollectError> {
        let offset_size = self.geometry.offset_size;
        let answer = raw::collect_at(file, &self.figures_at(), offset_size, output);
        let [_, _, _, records, leaves, internal_nodes, internal_records] = answer;
        let counts = Counts {
            records,
            leaves,
            internal_nodes,
            internal_records,
        };
        match accepted(&answer) {
            Ok(()) => Ok(counts),
            Err(refusal) => Err(CollectError { refusal, counts }),
        }
    }

    /// The records of the header's tree, in a buffer of their own.
    ///
    /// What is promised, of any header and any file: the answer is that of
    /// [`collect`](Self::collect) into an output as long as the part of the file from the header's
    /// base on, its records and counts or its refusal and counts. That is room enough where every
    /// record has a place of its own in the file. Where a file has nodes that several others point
    /// to, its tree can have more records: then [`Refusal::OutputTooShort`] tells the length of
    /// that part, and `collect` can be lent a longer output.
    ///
    /// The header's record count is not relied on. Room is taken for as many records as it says,
    /// but for no more bytes than that part has; where the tree turns out to have more, the room is
    /// doubled, again up to the part's length, and the tree is collected anew. So the room is never
    /// longer than the part, nor than the larger of what the count says and twice what the records
    /// take. A tree with as many records as the count says, or fewer, is read once.
    ///
    /// ```
    /// use nuldrafon::{Geometry, Header, WriteRequest};
    /// # fn main() -> Result<(), Box<dyn std::error::Error>> {
    /// let records: Vec<u8> = (0..64).collect();
    /// let request = WriteRequest::new(5, Geometry::new(40, 8, 8), 8, 38, &records);
    /// let written = request.write_to_vec()?;
    /// let file = [written.header, written.image].concat();
    /// let mut header = Header::parse(&file, 0, 8, 8)?;
    /// let collected = header.collect_to_vec(&file)?;
    /// assert_eq!(collected.records, records);
    /// assert_eq!(collected.counts.records, header.total_records);
    ///
    /// // A header that lies of its records takes no more room than the file has.
    /// header.total_records = u64::MAX;
    /// assert_eq!(header.collect_to_vec(&file)?, collected);
    /// header.total_records = 1;
    /// assert_eq!(header.collect_to_vec(&file)?, collected);
    /// # Ok(())
    /// # }
    /// ```
    pub fn collect_to_vec(&self, file: &[u8]) -> Result<Collected, CollectError> {
        let record_size = u64::from(self.geometry.record_size);
        let most = (file.len() as u64).saturating_sub(self.base);
        let mut room = self.total_records.saturating_mul(record_size).min(most);
        loop {
            let mut records = vec![0; room as usize];
            match self.collect(file, &mut records) {
                Ok(counts) => {
                    records.truncate((counts.records * record_size) as usize);
                    records.shrink_to_fit();
                    return Ok(Collected { records, counts });
                }
                Err(error) if !error.is_output_too_short() || room >= most => return Err(error),
                Err(_) => room = room.saturating_mul(2).clamp(1, most),
            }
        }
    }
}

impl CollectError {
    fn is_output_too_short(&self) -> bool {
        matches!(self.refusal, Refusal::OutputTooShort(_))
    }
}

impl fmt::Display for CollectError {
    fn fmt(&self, to: &mut fmt::Formatter) -> fmt::Result {
        write!(
            to,
            "after {} records: {}",
            self.counts.records, self.refusal
        )
    }
}

error_with_refusal!(CollectError);
