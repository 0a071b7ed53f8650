//! Collecting the records of a tree.

use super::nodes::Nodes;
use super::refusal::{self, require, Answer};
use crate::inputs::Tree;

/// What every collecting tells, refused or not.
#[derive(Debug, Clone, Copy, Default, PartialEq, Eq)]
pub struct Counts {
    /// Records put out.
    pub records: u64,
    /// Leaves read.
    pub leaves: u64,
    /// Internal nodes read.
    pub internals: u64,
    /// Records put out that are from internal nodes.
    pub internal_records: u64,
}

/// The end of a collecting.
#[derive(Debug, Clone, Copy, PartialEq, Eq)]
pub struct Collected {
    pub answer: Answer<()>,
    pub counts: Counts,
}

pub fn collect(file: &[u8], tree: &Tree, output: &mut [u8]) -> Collected {
    let mut counts = Counts::default();
    let answer = begin(file, tree, output, &mut counts);
    Collected { answer, counts }
}

fn begin(file: &[u8], tree: &Tree, output: &mut [u8], counts: &mut Counts) -> Answer<()> {
    let Some(nodes) = Nodes::of(file, tree)? else {
        return Ok(());
    };
    let mut walk = Walk {
        nodes,
        output,
        counts,
    };
    walk.node(tree.depth, tree.root_address, tree.root_records)
}

fn more(count: &mut u64) {
    *count = count.saturating_add(1);
}

struct Walk<'a> {
    nodes: Nodes<'a>,
    output: &'a mut [u8],
    counts: &'a mut Counts,
}

impl Walk<'_> {
    fn node(&mut self, level: u16, address: u64, count: u16) -> Answer<()> {
        let node = self.nodes.read(level, address, count)?;
        let mut records = node.records.chunks(self.nodes.record_size());
        if level == 0 {
            more(&mut self.counts.leaves);
            return records.try_for_each(|record| self.put(record));
        }
        more(&mut self.counts.internals);
        for (address, count) in node.children {
            self.node(level - 1, address, count)?;
            if let Some(record) = records.next() {
                self.put(record)?;
                more(&mut self.counts.internal_records);
            }
        }
        Ok(())
    }

    fn put(&mut self, record: &[u8]) -> Answer<()> {
        let length = self.output.len();
        let at = self.counts.records as usize * record.len();
        require(
            at + record.len() <= length,
            refusal::output_too_short(length),
        )?;
        self.output[at..at + record.len()].copy_from_slice(record);
        more(&mut self.counts.records);
        Ok(())
    }
}
