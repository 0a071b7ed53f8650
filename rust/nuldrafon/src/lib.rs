//! HDF5 version 2 B-trees, written and read by proved functions.
//!
//! A version 2 B-tree is the index in which an HDF5 file keeps records of one size: links of a
//! group, attributes of an object, chunks of a dataset. It is a header, and nodes of one size that
//! hold the records in the order in which they were given.
//!
//! The calls are those of the static libraries that `scripts/prove archives` makes of the Rattle
//! crates. Of each it is proved that it takes every input, reads and writes only what it is lent,
//! ends, and answers what its definition says; and of a write, a header read and a collecting one
//! after another that every record comes back, in order and byte for byte. This crate is the safe
//! Rust around them. It is tested and not proved, has no dependencies, and none of its functions
//! panics.
//!
//! | To | Call |
//! |---|---|
//! | know how large a tree gets | [`Geometry::plan`] |
//! | write a tree | [`WriteRequest::write_to_vec`], or [`WriteRequest::write`] into lent buffers |
//! | read a header | [`Header::parse`], or [`Header::parse_at`] behind a block |
//! | read all records | [`Header::collect_to_vec`], or [`Header::collect`] into a lent buffer |
//! | find one record by a number in it | [`Header::find`] |
//! | read a record by its fields | [`RecordValues::read`] |
//! | write one | [`RecordValues::write_to_vec`], or [`RecordValues::write`] into a lent buffer |
//! | look at the records of one leaf | [`LeafView::new`], or [`LeafView::new_at`] behind a block |
//! | know what nodes hold at most | [`Geometry::node_info`] |
//! | sum bytes as HDF5 does | [`jenkins_lookup3`] |
//!
//! What a call cannot do it refuses with a [`Refusal`], which says why in words and by number.
//!
//! A file can have a block of other bytes in front of its HDF5 part. The block's length is the base
//! of the reads: a header that is read with a base carries it to the calls that read its tree, and
//! all addresses and places count from the base.
//!
//! # Example
//!
//! Three records of 4 bytes are written behind 100 other bytes and read back.
//!
//! ```
//! use nuldrafon::{Geometry, Header, WriteRequest};
//!
//! # fn main() -> Result<(), Box<dyn std::error::Error>> {
//! let records = b"bay1bay2bay3";
//! // Nodes of 512 bytes, records of 4, addresses of 8.
//! let geometry = Geometry::new(512, 4, 8);
//! let length_size = 8;
//! let header_at = 100;
//! let nodes_at = header_at + Header::size(geometry.offset_size, length_size);
//! let request = WriteRequest::new(5, geometry, length_size, nodes_at as u64, records);
//! let written = request.write_to_vec()?;
//!
//! let mut file = vec![0; header_at];
//! file.extend(&written.header);
//! file.extend(&written.image);
//!
//! let header = Header::parse(&file, header_at as u64, geometry.offset_size, length_size)?;
//! assert_eq!(header.total_records, 3);
//! assert_eq!(header.collect_to_vec(&file)?.records, records);
//!
//! // A byte of a record is changed: the checksum of its leaf tells.
//! file[nodes_at + 6] ^= 1;
//! let refused = header.collect_to_vec(&file).unwrap_err();
//! assert_eq!(refused.refusal.number(), 6);
//! # Ok(())
//! # }
//! ```
#![deny(missing_docs)]
#![deny(unsafe_code)]

mod field;
mod find;
mod geometry;
mod header;
mod leaf_view;
#[allow(unsafe_code)]
pub mod raw;
mod record;
mod refusal;
mod write_request;

pub use field::Field;
pub use find::{FindError, Found};
pub use geometry::{Geometry, NodeInfo, Plan, LEVELS};
pub use header::{CollectError, Collected, Counts, Header};
pub use leaf_view::LeafView;
pub use raw::jenkins_lookup3;
pub use record::RecordValues;
pub use refusal::Refusal;
pub use write_request::{WriteRequest, Written};
