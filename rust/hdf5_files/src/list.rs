//! The list beside a file: what the HDF5 library says is in it.

use std::mem::swap;

use crate::bytes::Fault;
use crate::superblock::Sizes;

/// A name and its place in the order of creation.
pub struct Named {
    pub order: u64,
    pub name: String,
}

/// A chunk of two equal numbers, its address where the library was asked for it.
pub struct Chunk {
    pub kind: u8,
    pub value: u32,
    pub mask: u64,
    pub size: u64,
    pub address: Option<u64>,
    pub scaled: Vec<u64>,
}

pub enum Entries {
    Links(Vec<Named>),
    Attributes(Vec<Named>),
    Chunks(Vec<Chunk>),
}

impl Entries {
    /// Exchanges what the first and the last entry have.
    pub fn exchange(&mut self) {
        match self {
            Entries::Links(all) | Entries::Attributes(all) => {
                if let [first, .., last] = &mut all[..] {
                    swap(&mut first.order, &mut last.order);
                }
            }
            Entries::Chunks(all) => {
                if let [first, .., last] = &mut all[..] {
                    swap(&mut first.value, &mut last.value);
                }
            }
        }
    }

    /// Removes the last entry.
    pub fn shorten(&mut self) {
        match self {
            Entries::Links(all) | Entries::Attributes(all) => drop(all.pop()),
            Entries::Chunks(all) => drop(all.pop()),
        }
    }
}

pub struct List {
    pub sizes: Sizes,
    pub entries: Entries,
}

impl List {
    pub fn read(text: &str) -> Result<Self, Fault> {
        let mut lines = text.lines();
        let first: Vec<&str> = lines.next().unwrap_or_default().split('\t').collect();
        let [kind, offset, length, block] = first[..] else {
            return Err(format!("first line of a list: {first:?}"));
        };
        let sizes = Sizes {
            offset: parsed(offset)?,
            length: parsed(length)?,
            block: parsed(block)?,
        };
        let entries = match kind {
            "links" => Entries::Links(lines.map(named).collect::<Result<_, _>>()?),
            "attributes" => Entries::Attributes(lines.map(named).collect::<Result<_, _>>()?),
            "chunks" => Entries::Chunks(lines.map(chunk).collect::<Result<_, _>>()?),
            _ => return Err(format!("a list of {kind}")),
        };
        Ok(Self { sizes, entries })
    }
}

fn parsed<T: std::str::FromStr>(text: &str) -> Result<T, Fault> {
    text.parse().map_err(|_| format!("no number: {text}"))
}

fn named(line: &str) -> Result<Named, Fault> {
    let (order, name) = line.split_once('\t').ok_or(format!("no name: {line}"))?;
    Ok(Named {
        order: parsed(order)?,
        name: name.to_string(),
    })
}

fn chunk(line: &str) -> Result<Chunk, Fault> {
    let fields: Vec<&str> = line.split('\t').collect();
    let [kind, value, mask, size, address, scaled @ ..] = &fields[..] else {
        return Err(format!("no chunk: {line}"));
    };
    Ok(Chunk {
        kind: parsed(kind)?,
        value: parsed(value)?,
        mask: parsed(mask)?,
        size: parsed(size)?,
        address: address.parse().ok(),
        scaled: scaled.iter().map(|s| parsed(s)).collect::<Result<_, _>>()?,
    })
}
