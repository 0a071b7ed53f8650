//! Records by their meaning: the values of their fields.

use crate::raw;
use crate::refusal::{accepted, Refusal};

/// The values of a record of one of four tree types. Each field is a number, the lowest byte first.
///
/// | Tree type | Index of | Fields, with their bytes |
/// |---|---|---|
/// | 5 | links by name | name hash 4, heap id 7 |
/// | 6 | links by creation order | creation order 8, heap id 7 |
/// | 8 | attributes by name | heap id 8, message flags 1, creation order 4, name hash 4 |
/// | 9 | attributes by creation order | heap id 8, message flags 1, creation order 4 |
///
/// A value whose field the type lacks is read as 0, and has to be 0 to be written. Reading and
/// writing are inverse.
///
/// ```
/// use nuldrafon::{jenkins_lookup3, Geometry, Header, RecordValues, WriteRequest};
///
/// # fn main() -> Result<(), Box<dyn std::error::Error>> {
/// // The links of a group by name, tree type 5: written as values, and collected.
/// let mut links = Vec::new();
/// for (place, name) in ["deck 1", "deck 2", "deck 3"].iter().enumerate() {
///     links.push(RecordValues {
///         name_hash: jenkins_lookup3(name.as_bytes()).into(),
///         heap_id: 0x1000 + place as u64,
///         ..RecordValues::default()
///     });
/// }
/// links.sort_by_key(|link| link.name_hash);
/// let mut records = Vec::new();
/// for link in &links {
///     records.extend(link.write_to_vec(5)?);
/// }
/// let request = WriteRequest::new(5, Geometry::new(512, 11, 8), 8, 38, &records);
/// let written = request.write_to_vec()?;
/// let file = [written.header, written.image].concat();
///
/// let header = Header::parse(&file, 0, 8, 8)?;
/// let collected = header.collect_to_vec(&file)?;
/// let mut read = Vec::new();
/// for record in collected.records.chunks(header.geometry.record_size.into()) {
///     read.push(RecordValues::read(header.tree_type, record)?);
/// }
/// assert_eq!(read, links);
/// # Ok(())
/// # }
/// ```
#[derive(Debug, Clone, Copy, PartialEq, Eq, Hash, Default)]
pub struct RecordValues {
    /// The hash of the name: [`jenkins_lookup3`](crate::jenkins_lookup3) of its bytes.
    pub name_hash: u64,
    /// The id of the link or attribute in its fractal heap.
    pub heap_id: u64,
    /// The flags of the attribute's message.
    pub message_flags: u64,
    /// The place of the link or attribute in the order of creation.
    pub creation_order: u64,
}

impl RecordValues {
    /// The values of a record of a tree of this type.
    ///
    /// Refused by [`Refusal::UnknownRecordType`], then by [`Refusal::RecordTypeMismatch`] where the
    /// record has not the type's length.
    ///
    /// ```
    /// use nuldrafon::{jenkins_lookup3, RecordValues, Refusal};
    /// // An attribute by name, tree type 8.
    /// let mut record = b"\x01\x02\x00\x00\x00\x00\x00\x00\x04\x07\x00\x00\x00".to_vec();
    /// record.extend(jenkins_lookup3(b"height").to_le_bytes());
    /// let attribute = RecordValues::read(8, &record)?;
    /// assert_eq!(attribute.heap_id, 0x0201);
    /// assert_eq!(attribute.message_flags, 4);
    /// assert_eq!(attribute.creation_order, 7);
    /// assert_eq!(attribute.name_hash, jenkins_lookup3(b"height").into());
    ///
    /// // A record of type 9 ends before the hash, which is then read as 0.
    /// assert_eq!(RecordValues::read(9, &record), Err(Refusal::RecordTypeMismatch));
    /// assert_eq!(RecordValues::read(9, &record[..13])?.name_hash, 0);
    /// assert_eq!(RecordValues::read(7, &record), Err(Refusal::UnknownRecordType));
    /// # Ok::<(), Refusal>(())
    /// ```
    #[inline]
    pub fn read(tree_type: u8, record: &[u8]) -> Result<RecordValues, Refusal> {
        let answer = raw::record_read(tree_type, record);
        accepted(&answer)?;
        let [_, name_hash, heap_id, message_flags, creation_order] = answer;
        Ok(RecordValues {
            name_hash,
            heap_id,
            message_flags,
            creation_order,
        })
    }

    /// Writes the record of these values, for a tree of this type, to the front of the output, and
    /// returns its length. The output's other bytes stay.
    ///
    /// Refused by [`Refusal::UnknownRecordType`], then by [`Refusal::RecordTypeMismatch`] where a
    /// value is too large for its field, then by [`Refusal::OutputTooShort`]; nothing is written
    /// then.
    ///
    /// ```
    /// use nuldrafon::{RecordValues, Refusal};
    /// // A link by creation order, tree type 6.
    /// let link = RecordValues {
    ///     creation_order: 258,
    ///     heap_id: 7,
    ///     ..RecordValues::default()
    /// };
    /// let mut output = [0xff; 16];
    /// assert_eq!(link.write(6, &mut output)?, 15);
    /// assert_eq!(output[..8], [2, 1, 0, 0, 0, 0, 0, 0]);
    /// assert_eq!(output[8..], [7, 0, 0, 0, 0, 0, 0, 0xff]);
    ///
    /// // An index by name has no field for the creation order of a link.
    /// assert_eq!(link.write(5, &mut output), Err(Refusal::RecordTypeMismatch));
    /// assert_eq!(link.write(6, &mut output[..14]), Err(Refusal::OutputTooShort(14)));
    /// # Ok::<(), Refusal>(())
    /// ```
    #[inline]
    pub fn write(&self, tree_type: u8, output: &mut [u8]) -> Result<usize, Refusal> {
        let answer = raw::record_write(
            tree_type,
            self.name_hash,
            self.heap_id,
            self.message_flags,
            self.creation_order,
            output,
        );
        accepted(&answer)?;
        let [_, length, _] = answer;
        Ok(length as usize)
    }

    /// The record of these values, for a tree of this type.
    ///
    /// Refused as [`write`](Self::write) is, but that no output is too short.
    ///
    /// ```
    /// use nuldrafon::{jenkins_lookup3, RecordValues, Refusal};
    /// let link = RecordValues {
    ///     name_hash: jenkins_lookup3(b"deck 1").into(),
    ///     heap_id: 0x1000,
    ///     ..RecordValues::default()
    /// };
    /// let record = link.write_to_vec(5)?;
    /// assert_eq!(record.len(), 11);
    /// assert_eq!(RecordValues::read(5, &record)?, link);
    /// # Ok::<(), Refusal>(())
    /// ```
    pub fn write_to_vec(&self, tree_type: u8) -> Result<Vec<u8>, Refusal> {
        let mut record = vec![0; LONGEST];
        let length = self.write(tree_type, &mut record)?;
        record.truncate(length);
        Ok(record)
    }
}

/// The length of the longest record, that of type 8.
const LONGEST: usize = 17;
