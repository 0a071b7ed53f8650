//! Writes the index of an example site into a file, reads it back, finds one bay in it and reads its
//! record by its meaning, does so again behind a block of site notes, and shows what damaged copies
//! of the file get.

mod index;
mod site;

use std::error::Error;
use std::process::ExitCode;

use nuldrafon::{jenkins_lookup3, RecordValues};
use site::Bay;

/// The bay that is found, and whose record is damaged; and one that the site does not have.
const HIT: &str = "bay 17-04-2";
const MISSING: &str = "bay 41-04-2";

fn main() -> ExitCode {
    match run() {
        Ok(()) => ExitCode::SUCCESS,
        Err(wrong) => {
            eprintln!("not as it should be: {wrong}");
            ExitCode::FAILURE
        }
    }
}

fn run() -> Result<(), Box<dyn Error>> {
    let bays = site::bays();
    let records: Vec<u8> = bays.iter().flat_map(Bay::record).collect();
    println!(
        "The site: {} aisles of {} positions on {} levels, that is {} bays.\n\
         The index has one record for each bay, {} bytes long: a number made of the bay's name,\n\
         and where the name is kept.",
        site::AISLES,
        site::POSITIONS,
        site::LEVELS,
        bays.len(),
        site::RECORD_SIZE,
    );
    let file = write(&records)?;
    read(&file, &records)?;
    let place = find(&file, &bays)?;
    meaning(&file, place)?;
    behind_notes(&file, &records, place)?;
    damage(&file, place)
}

/// Writes the index and says what was made.
fn write(records: &[u8]) -> Result<Vec<u8>, Box<dyn Error>> {
    let (file, plan) = index::write(records)?;
    println!(
        "\nWritten: {} bytes of records, in {} nodes of {} bytes. {} nodes are leaves, which hold\n\
         records alone; the {} others also say which node to go on with, so that any bay is found\n\
         in {} nodes at most. The file has {} bytes; those beside the index stayed as they were.",
        records.len(),
        plan.nodes,
        index::GEOMETRY.node_size,
        plan.leaves,
        plan.nodes - plan.leaves,
        plan.depth + 1,
        file.len(),
    );
    Ok(file)
}

/// Reads the index back and holds it to what was written.
fn read(file: &[u8], records: &[u8]) -> Result<(), Box<dyn Error>> {
    let (header, collected) = index::read(file, 0)?;
    let counts = collected.counts;
    println!(
        "\nRead back: the file says that it has {} records; {} were read, from {} leaves and {}\n\
         other nodes.",
        header.total_records, counts.records, counts.leaves, counts.internal_nodes,
    );
    if header.total_records != counts.records || collected.records != records {
        return Err("the records read are not those written".into());
    }
    println!(
        "Compared: all {} bytes are those written, in the same order. No bay is missing, and none\n\
         was added.",
        records.len(),
    );
    Ok(())
}

/// Finds one bay by its name and gives its place in the file.
fn find(file: &[u8], bays: &[Bay]) -> Result<usize, Box<dyn Error>> {
    let hit = bays.iter().find(|bay| bay.name == HIT);
    let record = hit.ok_or("no such bay")?.record();
    let found = index::find(file, 0, HIT)?;
    let place = found.place.ok_or("the bay is not in the index")? as usize;
    if !file[place..].starts_with(&record) {
        return Err("the record found is not the bay's".into());
    }
    if index::find(file, 0, MISSING)?.place.is_some() {
        return Err("a bay was found that the site does not have".into());
    }
    println!(
        "\nFound: {HIT} alone, for a sign that shows it, at byte {place} of the file; {} nodes were\n\
         read. {MISSING} is not found: the site does not have it.",
        found.nodes,
    );
    Ok(place)
}

/// Reads the record of the bay that was found by its meaning, and writes it again.
fn meaning(file: &[u8], place: usize) -> Result<(), Box<dyn Error>> {
    let record = &file[place..][..site::RECORD_SIZE.into()];
    let values = RecordValues::read(site::TREE_TYPE, record)?;
    if values.name_hash != jenkins_lookup3(HIT.as_bytes()).into() {
        return Err("the record's name hash is not the bay's".into());
    }
    if values.write_to_vec(site::TREE_TYPE)? != record {
        return Err("the record written again is not the one read".into());
    }
    println!(
        "\nBy its meaning: the record has the name hash {:#010x}, that of {HIT}, and the heap id\n\
         {:#x}. Written again from these two it has the same {} bytes.",
        values.name_hash,
        values.heap_id,
        record.len(),
    );
    Ok(())
}

/// Puts site notes before the file; told how long they are, the reader has the same records and the
/// same place of the bay, and not told it has none.
fn behind_notes(file: &[u8], records: &[u8], place: usize) -> Result<(), Box<dyn Error>> {
    let noted = [site::NOTES.as_bytes(), file].concat();
    let base = site::NOTES.len() as u64;
    let (_, collected) = index::read(&noted, base)?;
    if collected.records != records {
        return Err("the records behind the notes are not those written".into());
    }
    if index::find(&noted, base, HIT)?.place != Some(place as u64) {
        return Err("the bay is not found behind the notes".into());
    }
    println!(
        "\nBehind {base} bytes of site notes: the same {} records are read, and {HIT} is found at byte\n\
         {place} behind the notes. Read as if the notes were not there:",
        collected.counts.records,
    );
    refused("the file begins with notes", &noted)
}

/// Damages copies of the file, two of them in the record at `place`; each must be refused.
fn damage(file: &[u8], place: usize) -> Result<(), Box<dyn Error>> {
    let mut flipped = file.to_vec();
    flipped[place] ^= 1;
    let mut exchanged = file.to_vec();
    exchanged.swap(place + 5, place + 6);
    let cut = &file[..file.len() / 2];

    println!("\nDamaged copies: none is taken for the site, and each is told why.");
    refused(&format!("one bit of {HIT} is turned"), &flipped)?;
    refused(&format!("two bytes of {HIT} are exchanged"), &exchanged)?;
    refused("the copy stopped half way", cut)?;
    refused("the file is empty", &[])
}

/// Reads a damaged file and says why it is refused.
fn refused(what: &str, file: &[u8]) -> Result<(), Box<dyn Error>> {
    match index::read(file, 0) {
        Ok(_) => Err(format!("accepted, although {what}").into()),
        Err(refusal) => {
            println!("- {what}: refused, {refusal}");
            Ok(())
        }
    }
}
