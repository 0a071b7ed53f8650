// Writes an index of 1,000 bays, puts it into a file, and reads it back.

use nuldrafon::{Geometry, Header, WriteRequest};

fn main() -> Result<(), Box<dyn std::error::Error>> {
    // The records in their order, end to end: here a number of 8 bytes for each bay.
    let records: Vec<u8> = (0..1_000_u64).flat_map(u64::to_le_bytes).collect();
    let geometry = Geometry::new(512, 8, 8); // sizes of a node, a record and an address
    let length_size = 8;
    let nodes_at = Header::size(geometry.offset_size, length_size);
    // 5 is the kind of tree: HDF5's number for an index of names.
    let request = WriteRequest::new(5, geometry, length_size, nodes_at as u64, &records);
    let written = request.write_to_vec()?;
    let mut file = [written.header, written.image].concat();

    let header = Header::parse(&file, 0, geometry.offset_size, length_size)?;
    let read = header.collect_to_vec(&file)?;
    assert_eq!(read.records, records);
    let counts = read.counts;
    println!("{} records, {} leaves", counts.records, counts.leaves);
    // 1000 records, 16 leaves

    file.truncate(5_000);
    println!("{}", header.collect_to_vec(&file).unwrap_err());
    // after 0 records: the file ends too early: 8236 bytes are needed, 5000 are there
    Ok(())
}
