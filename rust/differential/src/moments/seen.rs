//! What was seen of writes that passed.

use std::fmt;

#[derive(Default)]
pub struct Seen {
    pub writes: u64,
    pub nodes: u64,
    pub bytes: u64,
    /// Instructions of one run of each write.
    pub steps: u64,
    /// Ends of pieces: the image filled up to there was seen.
    pub pieces: u64,
    /// Ends of fields within pieces: of signatures and versions, of a leaf's records but the last.
    pub front_fields: Within,
    pub leaf_records: Within,
    /// Bytes put before one in front of them, in the same piece.
    pub backwards: u64,
    /// Bytes that a copy or a fill stored more than once.
    pub copied_again: u64,
    pub filled_again: u64,
}

/// Ends of fields within pieces: all, and those up to which the filled image was seen.
#[derive(Default)]
pub struct Within {
    all: u64,
    seen: u64,
}

impl Within {
    pub fn count(&mut self, seen: bool) {
        self.all += 1;
        self.seen += u64::from(seen);
    }
}

impl fmt::Display for Within {
    fn fmt(&self, to: &mut fmt::Formatter) -> fmt::Result {
        write!(to, "{} of {}", self.seen, self.all)
    }
}

impl fmt::Display for Seen {
    fn fmt(&self, to: &mut fmt::Formatter) -> fmt::Result {
        write!(
            to,
            "{} writes, {} nodes, {} bytes, {} instructions; the image seen filled to each of {} \
             ends of pieces; within pieces to {} ends of signatures and versions and to {} of \
             records in leaves, and {} bytes put before one in front of them; stored more than \
             once {} bytes of records, {} of zeros",
            self.writes,
            self.nodes,
            self.bytes,
            self.steps,
            self.pieces,
            self.front_fields,
            self.leaf_records,
            self.backwards,
            self.copied_again,
            self.filled_again,
        )
    }
}
