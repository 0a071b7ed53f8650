//! The index of the site in a file: written amid other bytes, read back, and one bay found in it.

use std::error::Error;

use nuldrafon::{jenkins_lookup3, Collected, Found, Geometry, Header, Plan, Refusal, WriteRequest};

use crate::site::{HASH, RECORD_SIZE, TREE_TYPE};

/// Nodes of 512 bytes, addresses of 8.
pub const GEOMETRY: Geometry = Geometry::new(512, RECORD_SIZE, 8);
const LENGTH_SIZE: u8 = 8;

// The file: the header and the nodes, with other bytes before, between and after them.
const HEADER_AT: usize = 1_000;
const NODES_AT: usize = 4_096;
const AFTER: usize = 500;

/// Every other byte of the file.
const OTHER: u8 = 0xa5;

/// Makes the file of the records, with the figures of their tree.
pub fn write(records: &[u8]) -> Result<(Vec<u8>, Plan), Box<dyn Error>> {
    let request = WriteRequest::new(TREE_TYPE, GEOMETRY, LENGTH_SIZE, NODES_AT as u64, records);
    let size = GEOMETRY.plan(request.record_count)?.image_size as usize;
    let mut file = vec![OTHER; NODES_AT + size + AFTER];
    // Both parts are longer than what is written to their fronts.
    let (front, image) = file.split_at_mut(NODES_AT);
    let plan = request.write(&mut front[HEADER_AT..], image)?;

    let header_end = HEADER_AT + Header::size(GEOMETRY.offset_size, LENGTH_SIZE);
    let others = [&front[..HEADER_AT], &front[header_end..], &image[size..]];
    if others.concat().iter().any(|byte| *byte != OTHER) {
        return Err("a byte beside the index was changed".into());
    }
    Ok((file, plan))
}

/// Reads the header and then all records of the file, which begins at `base`.
pub fn read(file: &[u8], base: u64) -> Result<(Header, Collected), Box<dyn Error>> {
    let header = header(file, base)?;
    let collected = header.collect_to_vec(file)?;
    Ok((header, collected))
}

/// Finds the record of the bay with this name, by the hash of the name.
pub fn find(file: &[u8], base: u64, name: &str) -> Result<Found, Box<dyn Error>> {
    let hash = jenkins_lookup3(name.as_bytes());
    Ok(header(file, base)?.find(file, HASH, hash.into())?)
}

fn header(file: &[u8], base: u64) -> Result<Header, Refusal> {
    let offset_size = GEOMETRY.offset_size;
    Header::parse_at(file, base, HEADER_AT as u64, offset_size, LENGTH_SIZE)
}
