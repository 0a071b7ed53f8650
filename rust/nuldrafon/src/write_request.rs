//! A write: its numbers and records, into lent buffers or new ones.

use crate::{raw, Geometry, Header, Plan, Refusal};

/// What is written: the records, and the numbers of the tree that they are to make.
#[derive(Debug, Clone, Copy, PartialEq, Eq, Hash)]
pub struct WriteRequest<'a> {
    /// What the records are: HDF5's number of the kind of tree. Any number is taken.
    pub tree_type: u8,
    /// The sizes of nodes, records and addresses.
    pub geometry: Geometry,
    /// The bytes of the record count in the header: 2, 4 or 8.
    pub length_size: u8,
    /// The address that the first node will have in the file; the others follow it.
    pub start: u64,
    /// How many records there are.
    pub record_count: u64,
    /// The records end to end, in the order that they are to have.
    pub records: &'a [u8],
}

/// A written tree in buffers of its own.
#[derive(Debug, Clone, PartialEq, Eq, Hash)]
pub struct Written {
    /// The header, to be put anywhere in the file.
    pub header: Vec<u8>,
    /// The nodes, to be put at the request's start.
    pub image: Vec<u8>,
    /// The tree's figures.
    pub plan: Plan,
}

impl<'a> WriteRequest<'a> {
    /// A request for all records in the buffer, which are as many as its length says. Bytes left
    /// over, fewer than a record has, make the write refused by [`Refusal::RecordBufferLength`].
    ///
    /// ```
    /// use nuldrafon::{Geometry, Refusal, WriteRequest};
    /// let request = WriteRequest::new(5, Geometry::new(512, 4, 8), 8, 0, b"bay1bay2bay");
    /// assert_eq!(request.record_count, 2);
    /// assert_eq!(request.write_to_vec(), Err(Refusal::RecordBufferLength(11)));
    /// ```
    pub fn new(
        tree_type: u8,
        geometry: Geometry,
        length_size: u8,
        start: u64,
        records: &'a [u8],
    ) -> WriteRequest<'a> {
        let record_size = usize::from(geometry.record_size);
        let record_count = records.len().checked_div(record_size).unwrap_or(0) as u64;
        WriteRequest {
            tree_type,
            geometry,
            length_size,
            start,
            record_count,
            records,
        }
    }

    /// Writes the header to the front of one buffer and the nodes to the front of another. Bytes
    /// behind them stay as they were; where the write is refused, all bytes do.
    ///
    /// The header takes [`Header::size`] bytes, the nodes [`Plan::image_size`]. The nodes are filled
    /// one after another, each front to back in one pass, and then the header.
    ///
    /// Refused, by the first of these that is so: [`Refusal::InvalidOffsetSize`],
    /// [`Refusal::InvalidLengthSize`], then as [`Geometry::plan`] is from the node size on,
    /// [`Refusal::RecordBufferLength`], [`Refusal::CountAboveLengthSize`],
    /// [`Refusal::AddressAboveOffsetSize`], [`Refusal::OutputTooShort`] for the header, and for the
    /// nodes.
    ///
    /// ```
    /// use nuldrafon::{Geometry, Header, Refusal, WriteRequest};
    /// let request = WriteRequest::new(5, Geometry::new(40, 8, 8), 8, 4_096, b"record 1record 2");
    /// let (mut header, mut image) = ([0; 38], [0xff; 50]);
    /// let plan = request.write(&mut header, &mut image)?;
    /// assert_eq!((plan.nodes, plan.image_size), (1, 40));
    /// assert_eq!(image[..6], *b"BTLF\0\x05");
    /// assert_eq!(image[40..], [0xff; 10]);
    /// let refused = request.write(&mut header[..37], &mut image);
    /// assert_eq!(refused, Err(Refusal::OutputTooShort(37)));
    /// # Ok::<(), Refusal>(())
    /// ```
    #[inline]
    pub fn write(&self, header: &mut [u8], image: &mut [u8]) -> Result<Plan, Refusal> {
        Plan::told(raw::write(
            self.tree_type,
            self.record_count,
            self.geometry.record_size,
            self.geometry.node_size,
            self.geometry.offset_size,
            self.length_size,
            self.start,
            self.records,
            header,
            image,
        ))
    }

    /// Writes the header and the nodes into buffers of just their lengths.
    ///
    /// Refused as [`write`](Self::write) is into buffers that are long enough. Room is taken only
    /// once nothing refuses any more, so a wrong number takes no memory.
    ///
    /// ```
    /// use nuldrafon::{Geometry, Refusal, WriteRequest};
    /// let request = WriteRequest::new(5, Geometry::new(40, 8, 8), 8, 0, &[7; 32]);
    /// let written = request.write_to_vec()?;
    /// assert_eq!((written.header.len(), written.image.len()), (38, 3 * 40));
    /// let refused = WriteRequest { length_size: 3, ..request }.write_to_vec();
    /// assert_eq!(refused, Err(Refusal::InvalidLengthSize(3)));
    /// # Ok::<(), Refusal>(())
    /// ```
    pub fn write_to_vec(&self) -> Result<Written, Refusal> {
        // Into no room at all every write is refused: by the header's length where nothing else
        // is wrong.
        let refused = self.write(&mut [], &mut []);
        if !matches!(refused, Err(Refusal::OutputTooShort(_))) {
            refused?;
        }
        let image_size = self.geometry.plan(self.record_count)?.image_size;
        let mut header = vec![0; Header::size(self.geometry.offset_size, self.length_size)];
        let mut image = vec![0; image_size as usize];
        let plan = self.write(&mut header, &mut image)?;
        Ok(Written {
            header,
            image,
            plan,
        })
    }
}
