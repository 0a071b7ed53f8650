//! One record of a tree, found by its key.

use std::fmt;

use crate::refusal::{accepted, error_with_refusal, Refusal};
use crate::{raw, Field, Header};

/// What a find came to.
#[derive(Debug, Clone, Copy, PartialEq, Eq, Hash)]
pub struct Found {
    /// The place of the record's first byte, counted from the header's base; none where no record
    /// was found.
    pub place: Option<u64>,
    /// The nodes that were read: one of each level, or 0 where the tree is empty.
    pub nodes: u64,
}

/// A refused find: why, and how many nodes were read before.
///
/// ```
/// use nuldrafon::{Field, Geometry, Header, Refusal};
/// let mut header = Header::default();
/// header.geometry = Geometry::new(40, 8, 8);
/// (header.root_records, header.total_records) = (2, 2);
/// let error = header.find(b"BTLF", Field::new(0, 8), 7).unwrap_err();
/// assert_eq!(
///     error.to_string(),
///     "after 0 nodes: the file ends too early: 6 bytes are needed, 4 are there"
/// );
/// // For callers that want the cause alone.
/// assert_eq!(Refusal::from(error).number(), 1);
/// ```
#[derive(Debug, Clone, Copy, PartialEq, Eq, Hash)]
pub struct FindError {
    /// Why the find ended.
    pub refusal: Refusal,
    /// The nodes that were read before.
    pub nodes: u64,
}

impl Header {
    /// Finds a record of the header's tree by its key, the number in the field `key` of the record.
    /// It reads one node of each level, and no other, in the part of the file from the header's
    /// base on.
    ///
    /// What is found, where the tree can be [collected](Self::collect) and its records, in that
    /// order, never fall in key: the first record with the key that is sought, and none exactly
    /// where no record has it. Every other file has an answer too: in each node the first record
    /// whose key is not below the one sought says which child is read next, the last child where
    /// there is none such, and the answer is the last of these records, the leaf's included, that
    /// has the key sought. In a file whose keys fall, a record that has the key can be missed.
    ///
    /// Refused before anything is read by [`Refusal::BaseBeyondFile`],
    /// [`Refusal::ZeroRecordSize`], [`Refusal::DepthAboveLimit`] and [`Refusal::InvalidKeyField`],
    /// in this order; then by the first of the nodes read that cannot be:
    /// [`Refusal::UnexpectedEof`], [`Refusal::InvalidBTreeV2Signature`],
    /// [`Refusal::InvalidOffsetSize`], [`Refusal::ChecksumMismatch`]. In a tree without records
    /// nothing is found, and nothing is refused but a base beyond the file.
    ///
    /// ```
    /// use nuldrafon::{Field, Geometry, Header, Refusal, WriteRequest};
    /// # fn main() -> Result<(), Box<dyn std::error::Error>> {
    /// // A car park has the bays 100, 102, .. 118: 2 bytes of bay number, 6 of sensor each.
    /// let mut records = Vec::new();
    /// for bay in (100_u16..120).step_by(2) {
    ///     records.extend(bay.to_le_bytes());
    ///     records.extend(format!("sen{bay}").bytes());
    /// }
    /// let request = WriteRequest::new(5, Geometry::new(40, 8, 8), 8, 38, &records);
    /// let written = request.write_to_vec()?;
    /// let file = [written.header, written.image].concat();
    /// let header = Header::parse(&file, 0, 8, 8)?;
    ///
    /// let bay = Field::new(0, 2);
    /// let found = header.find(&file, bay, 114)?;
    /// let place = found.place.expect("bay 114 is there") as usize;
    /// assert_eq!(file[place + 2..][..6], *b"sen114");
    /// assert_eq!(found.nodes, u64::from(header.depth) + 1);
    ///
    /// assert_eq!(header.find(&file, bay, 115)?.place, None);
    /// let refused = header.find(&file, Field::new(0, 0), 114).unwrap_err();
    /// assert_eq!(refused.refusal, Refusal::InvalidKeyField);
    ///
    /// // The same behind a block of notes: the place counts from the base.
    /// let with_notes = [b"site 7, decks 1 to 3", &file[..]].concat();
    /// let header = Header::parse_at(&with_notes, 20, 0, 8, 8)?;
    /// assert_eq!(header.find(&with_notes, bay, 114)?, found);
    /// assert_eq!(with_notes[20 + place + 2..][..6], *b"sen114");
    /// # Ok(())
    /// # }
    /// ```
    #[inline]
    pub fn find(&self, file: &[u8], key: Field, sought: u64) -> Result<Found, FindError> {
        let offset_size = self.geometry.offset_size;
        let figures = self.figures_at();
        let answer = raw::find_at(file, &figures, offset_size, key.start, key.width, sought);
        let [_, _, _, nodes, found, place] = answer;
        match accepted(&answer) {
            Ok(()) => Ok(Found {
                place: (found != 0).then_some(place),
                nodes,
            }),
            Err(refusal) => Err(FindError { refusal, nodes }),
        }
    }
}

impl fmt::Display for FindError {
    fn fmt(&self, to: &mut fmt::Formatter) -> fmt::Result {
        write!(to, "after {} nodes: {}", self.nodes, self.refusal)
    }
}

error_with_refusal!(FindError);
