//! The moments of a write: what lent memory holds after each instruction, held to the fields of
//! the nodes.

mod order;
mod pieces;
mod seen;
#[cfg_attr(
    not(all(target_arch = "x86_64", target_os = "linux")),
    path = "no_stepping.rs"
)]
mod stepping;
mod stores;

use crate::compare::bytes::UNIFORM;
use crate::compare::Held;
use crate::model::{joined, Fields};
pub use seen::Seen;
use stepping::watched;

/// What is said where no call can be watched.
pub const NOT_WATCHED: &str = "not run: no single steps here";

/// Bytes behind the image that are watched too.
const BEHIND: usize = 9;

/// A byte of watched memory that an instruction made another.
#[derive(Debug, Clone, Copy)]
pub struct Change {
    /// The number of the instruction, from 1.
    pub step: u32,
    pub place: u32,
    pub byte: u8,
}

/// What was seen of a call: how many instructions it took, and every change in their order.
#[derive(Debug)]
pub struct Log {
    pub steps: u32,
    pub changes: Vec<Change>,
}

/// What becomes of a byte that an instruction changed.
#[derive(Debug, Clone, Copy)]
pub enum Then {
    /// It stays.
    Leave,
    /// It is made what it was, so that a second store of the same shows.
    PutBack,
}

/// A write that was watched: the byte that its memory was lent full of, and the log.
pub struct Run {
    pub lent: u8,
    pub log: Log,
}

/// Two runs of one write into the same memory, lent full of different bytes.
pub type Runs = [Run; 2];

/// Watches a write, and holds its moments to the fields of the nodes that it writes; none where no
/// call can be watched.
pub fn hold(nodes: &[Fields], mut write: impl FnMut(&mut [u8]), seen: &mut Seen) -> Option<Held> {
    let length: usize = nodes.iter().map(|fields| joined(fields).len()).sum();
    let mut memory = vec![0; length + BEHIND];
    // A first write, so that all that it calls is in place for every run.
    write(&mut memory);
    let mut runs = |then| {
        let [first, second] = UNIFORM.map(|lent| {
            memory.fill(lent);
            let log = watched(&mut memory, then, &mut write)?;
            Some(Run { lent, log })
        });
        Some([first?, second?])
    };
    let (left, put_back) = (runs(Then::Leave)?, runs(Then::PutBack)?);
    let held = order::hold(nodes, &left, seen);
    Some(held.and_then(|()| stores::hold(nodes, &put_back, seen)))
}
