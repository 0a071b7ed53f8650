//! The Rust of hdf5-pure, unchanged, behind plain functions: what the port is held to.
//!
//! Its sources are copied at build time from the folder that HDF5_PURE names. Where none is named,
//! [`AVAILABLE`] is false and every function panics.

#[cfg(hdf5_pure)]
mod stand_ins;
#[cfg(hdf5_pure)]
use stand_ins::{message_type, source, ByteOrder, LittleEndian};
// The copied modules say `byteorder::` and find the stand-in here.
#[cfg(hdf5_pure)]
extern crate self as byteorder;
#[cfg(hdf5_pure)]
include!(concat!(env!("OUT_DIR"), "/modules.rs"));

/// Whether the Rust was built in.
pub const AVAILABLE: bool = cfg!(hdf5_pure);

/// What to say where it was not.
pub const NOT_RUN: &str = "the comparison with the Rust was not run: set HDF5_PURE to the folder \
                           of hdf5-pure, which holds its src/";

/// The capacity table: W, and for each level M, C and T.
#[derive(Debug, Clone, PartialEq, Eq)]
pub struct Table {
    pub w: u64,
    pub m: Vec<u64>,
    pub c: Vec<u64>,
    pub t: Vec<u64>,
}

/// The figures of an accepted plan.
#[derive(Debug, Clone, Copy, PartialEq, Eq)]
pub struct Planned {
    pub depth: u16,
    pub nodes: u64,
    pub leaves: u64,
    pub image_size: u64,
}

/// What a header says.
#[derive(Debug, Clone, Copy, PartialEq, Eq)]
pub struct Header {
    pub tree_type: u8,
    pub node_size: u32,
    pub record_size: u16,
    pub depth: u16,
    pub root_address: u64,
    pub root_records: u16,
    pub total_records: u64,
}

/// Why a file was refused: 1 it ends early (end needed, length), 2 signature, 3 version (itself),
/// 4 offset size (itself), 5 length size (itself), 6 checksum (stored, computed). Values that a
/// cause does not have are 0.
#[derive(Debug, Clone, Copy, PartialEq, Eq)]
pub struct Refusal {
    pub number: u64,
    pub values: [u64; 2],
}

/// The given block where the Rust was built in, and a panic where it was not.
#[cfg(hdf5_pure)]
macro_rules! with_rust {
    ($($block:tt)*) => {{ $($block)* }};
}
#[cfg(not(hdf5_pure))]
macro_rules! with_rust {
    ($($block:tt)*) => {
        panic!("{NOT_RUN}")
    };
}

mod calls;
pub use calls::{collect, jenkins_lookup3, leaf, node_info, parse, plan, serialize};
