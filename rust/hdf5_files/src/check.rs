//! Holds the trees of a real file to what the HDF5 library says is in it.

use std::collections::HashMap;
use std::ops::Range;

use crate::bytes::{number, part, same, Fault};
use crate::find::{Finds, Index};
use crate::list::{Chunk, Entries, Named};
use crate::superblock::Sizes;
use crate::tree::Tree;

/// Where the fields of the records by name and by creation order stand. The key is what both have:
/// the heap id, and for attributes the flags and the creation order too.
struct Layout {
    kinds: [u8; 2],
    record_sizes: [u16; 2],
    hash: Range<usize>,
    order: Range<usize>,
    keys: [Range<usize>; 2],
}

const LINKS: Layout = Layout {
    kinds: [5, 6],
    record_sizes: [11, 15],
    hash: 0..4,
    order: 0..8,
    keys: [4..11, 8..15],
};

const ATTRIBUTES: Layout = Layout {
    kinds: [8, 9],
    record_sizes: [17, 13],
    hash: 13..17,
    order: 9..13,
    keys: [0..13, 0..13],
};

/// Holds the trees of a file to its list, and finds what is in them.
pub fn file(file: &[u8], sizes: Sizes, trees: &[Tree], entries: &Entries) -> Result<Finds, Fault> {
    let kinds: Vec<u8> = trees.iter().map(|tree| tree.header.tree_type).collect();
    let [first, second] = trees else {
        return Err(format!("trees of the types {kinds:?}"));
    };
    let due = match entries {
        Entries::Links(_) => LINKS.kinds,
        Entries::Attributes(_) => ATTRIBUTES.kinds,
        Entries::Chunks(_) => [10, 11],
    };
    let pair = match kinds[0] == due[0] {
        true => [first, second],
        false => [second, first],
    };
    same("types", pair.map(|tree| tree.header.tree_type), due)?;
    match entries {
        Entries::Links(names) => named(file, &LINKS, pair, names),
        Entries::Attributes(names) => named(file, &ATTRIBUTES, pair, names),
        Entries::Chunks(all) => {
            let mut finds = Finds::default();
            for tree in pair {
                let kind = tree.header.tree_type;
                let own = all.iter().filter(|chunk| chunk.kind == kind);
                chunks(&file[sizes.block..], sizes, tree, own.collect())?;
                finds.add(find_chunks(file, tree)?);
            }
            Ok(finds)
        }
    }
}

fn named(file: &[u8], layout: &Layout, pair: [&Tree; 2], names: &[Named]) -> Result<Finds, Fault> {
    by_name_and_order(layout, pair, names)?;
    find_names(file, layout, pair, names)
}

/// By creation order: the listed orders, ascending. By name: the hash of each name, ascending, and
/// by name where hashes are equal. The key tells which name a record is of.
fn by_name_and_order(layout: &Layout, pair: [&Tree; 2], names: &[Named]) -> Result<(), Fault> {
    let record_sizes = pair.map(|tree| tree.header.geometry.record_size);
    same("record sizes", record_sizes, layout.record_sizes)?;
    let [by_name, by_order] = pair;
    same("records by name", by_name.rows().count(), names.len())?;
    same("records by order", by_order.rows().count(), names.len())?;
    let mut listed: Vec<&Named> = names.iter().collect();
    listed.sort_by_key(|named| named.order);
    let mut owners = HashMap::new();
    for (row, named) in by_order.rows().zip(listed) {
        same("order", number(&row[layout.order.clone()]), named.order)?;
        owners.insert(&row[layout.keys[1].clone()], &named.name);
    }
    let mut before = None;
    for row in by_name.rows() {
        let owner = owners.remove(&row[layout.keys[0].clone()]);
        let name = owner.ok_or("a record by name that is none by order, or comes twice")?;
        let hash = nuldrafon::jenkins_lookup3(name.as_bytes());
        same("hash", number(&row[layout.hash.clone()]), hash.into())?;
        if before >= Some((hash, name)) {
            return Err(format!("{name} after {before:?}"));
        }
        before = Some((hash, name));
    }
    Ok(())
}

/// Finds each name by its hash, and its creation order: both records have the same key. Of names
/// with one hash the first has the record that is found.
fn find_names(
    file: &[u8],
    layout: &Layout,
    pair: [&Tree; 2],
    names: &[Named],
) -> Result<Finds, Fault> {
    let by_name = Index::new(file, pair[0], layout.hash.clone())?;
    let by_order = Index::new(file, pair[1], layout.order.clone())?;
    let hash = |named: &Named| u64::from(nuldrafon::jenkins_lookup3(named.name.as_bytes()));
    let mut first: HashMap<u64, &str> = HashMap::new();
    for named in names {
        let name = first.entry(hash(named)).or_insert(&named.name);
        *name = (*name).min(&named.name);
    }
    let mut finds = Finds::default();
    for named in names {
        let found = [by_name.find(hash(named))?, by_order.find(named.order)?];
        let [Some(own), Some(ordered)] = found else {
            return Err(format!("{} is not found", named.name));
        };
        let equal = own[layout.keys[0].clone()] == ordered[layout.keys[1].clone()];
        let is_first = first[&hash(named)] == named.name;
        same("keys of the records found", equal, is_first)?;
        finds.found += 2;
        finds.shared += u64::from(!is_first);
    }
    same("two names of one hash", finds.shared > 0, true)?;
    finds.absent = by_name.absent()? + by_order.absent()?;
    Ok(finds)
}

/// Finds the first chunk of each row, by the row's scaled offset.
fn find_chunks(file: &[u8], tree: &Tree) -> Result<Finds, Fault> {
    let end = tree.record_size();
    let rows = Index::new(file, tree, end - 16..end - 8)?;
    Ok(Finds {
        found: rows.keys()?,
        absent: rows.absent()?,
        ..Finds::default()
    })
}

/// The listed chunks, by scaled offsets; at each address of the HDF5 part stand the chunk's two
/// numbers.
fn chunks(hdf5: &[u8], sizes: Sizes, tree: &Tree, mut due: Vec<&Chunk>) -> Result<(), Fault> {
    same("chunks", tree.rows().count(), due.len())?;
    due.sort_by(|a, b| a.scaled.cmp(&b.scaled));
    for (row, chunk) in tree.rows().zip(due) {
        let (address, rest) = row.split_at(sizes.offset.into());
        let (stored, scaled) = rest.split_at(rest.len() - 8 * chunk.scaled.len());
        let found: Vec<u64> = scaled.chunks_exact(8).map(number).collect();
        same("scaled offsets", &found, &chunk.scaled)?;
        let address = number(address);
        same("address", address, chunk.address.unwrap_or(address))?;
        let value = chunk.value.to_le_bytes();
        same("chunk", part(hdf5, address, 8)?, &[value, value].concat())?;
        if tree.header.tree_type == 11 {
            let (size, mask) = stored.split_at(stored.len() - 4);
            let found = (number(size), number(mask));
            same("size and mask", found, (chunk.size, chunk.mask))?;
        } else {
            same("bytes between", stored.len(), 0)?;
        }
    }
    Ok(())
}
