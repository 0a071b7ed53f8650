//! The example site: its bays, and the record that the index holds of each.

use nuldrafon::Field;

/// HDF5's number for an index of names.
pub const TREE_TYPE: u8 = 5;

/// A record: the hash of the bay's name (4 bytes, low byte first) and a heap id (7 bytes).
pub const RECORD_SIZE: u16 = 11;
pub const HASH: Field = Field::new(0, 4);

pub const AISLES: u32 = 40;
pub const POSITIONS: u32 = 30;
pub const LEVELS: u32 = 5;

/// What an installer wrote down, before the file.
pub const NOTES: &str = "Aisle 17: sensors renewed in May.\nRamp B is closed on Sundays.\n";

pub struct Bay {
    pub name: String,
    hash: u32,
    /// Where the name begins in the site's heap, in which the names stand end to end.
    place: u32,
}

impl Bay {
    pub fn record(&self) -> [u8; RECORD_SIZE as usize] {
        let length = self.name.len() as u16;
        let mut record = [0; RECORD_SIZE as usize];
        record[..4].copy_from_slice(&self.hash.to_le_bytes());
        // The heap id: kind 0, the name's place, its length.
        record[5..9].copy_from_slice(&self.place.to_le_bytes());
        record[9..].copy_from_slice(&length.to_le_bytes());
        record
    }
}

/// All bays as the index has them: by hash, and by name where hashes are equal.
pub fn bays() -> Vec<Bay> {
    let mut bays = Vec::new();
    let mut place = 0;
    for name in names() {
        let hash = nuldrafon::jenkins_lookup3(name.as_bytes());
        let length = name.len() as u32;
        bays.push(Bay { name, hash, place });
        place += length;
    }
    bays.sort_by(|a, b| (a.hash, &a.name).cmp(&(b.hash, &b.name)));
    bays
}

fn names() -> impl Iterator<Item = String> {
    let places = (1..=AISLES).flat_map(|aisle| (1..=POSITIONS).map(move |p| (aisle, p)));
    places.flat_map(|(aisle, p)| {
        (1..=LEVELS).map(move |level| format!("bay {aisle:02}-{p:02}-{level}"))
    })
}
