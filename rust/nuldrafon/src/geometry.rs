//! The sizes of a tree, and what they come to: the capacity table and the plan.

use crate::raw;
use crate::refusal::{accepted, Refusal};

/// The levels that a tree can have: 0, the leaves, to 32.
pub const LEVELS: usize = 33;

/// The sizes in bytes that fix the form of a tree.
#[derive(Debug, Clone, Copy, Default, PartialEq, Eq, Hash)]
pub struct Geometry {
    /// The bytes of a node.
    pub node_size: u32,
    /// The bytes of a record.
    pub record_size: u16,
    /// The bytes of an address: 2, 4 or 8.
    pub offset_size: u8,
}

/// The tree that a number of records takes.
#[derive(Debug, Clone, Copy, PartialEq, Eq, Hash)]
pub struct Plan {
    /// The level of the root; 0 where the root is a leaf.
    pub depth: u16,
    /// All nodes.
    pub nodes: u64,
    /// Those of them that are leaves.
    pub leaves: u64,
    /// The bytes of all nodes.
    pub image_size: u64,
}

/// The capacity table: what nodes and subtrees hold at most, and the widths of the numbers in a
/// node. Entries above the depth that was asked for are 0.
#[derive(Debug, Clone, PartialEq, Eq, Hash)]
pub struct NodeInfo {
    /// The bytes of a child's record count.
    pub max_nrec_size: u8,
    /// The records of a full node of each level.
    pub max_nrec: [u64; LEVELS],
    /// The records of a full subtree of each level, at most 2^64 - 1.
    pub cum_max_nrec: [u64; LEVELS],
    /// The bytes of a subtree's total, by the level of the subtree's root; 0 for leaves.
    pub cum_max_nrec_size: [u8; LEVELS],
}

impl Geometry {
    /// The sizes of a node, of a record and of an address. Any are taken here; a call that cannot
    /// use them says so.
    pub const fn new(node_size: u32, record_size: u16, offset_size: u8) -> Geometry {
        Geometry {
            node_size,
            record_size,
            offset_size,
        }
    }

    /// The tree that `record_count` records take.
    ///
    /// Refused, by the first of these that is so: [`Refusal::InvalidOffsetSize`],
    /// [`Refusal::InvalidNodeSize`], [`Refusal::ZeroRecordSize`], [`Refusal::TooManyRecords`],
    /// [`Refusal::LevelHoldsNone`], [`Refusal::SubtreeTooThin`].
    ///
    /// ```
    /// use nuldrafon::{Geometry, Refusal};
    /// let plan = Geometry::new(40, 8, 8).plan(8)?;
    /// assert_eq!((plan.depth, plan.nodes, plan.leaves, plan.image_size), (2, 7, 4, 280));
    /// let too_small = Geometry::new(26, 8, 8);
    /// assert_eq!(too_small.plan(3), Err(Refusal::LevelHoldsNone(1)));
    /// # Ok::<(), Refusal>(())
    /// ```
    #[inline]
    pub fn plan(&self, record_count: u64) -> Result<Plan, Refusal> {
        Plan::told(raw::plan(
            record_count,
            self.record_size,
            self.node_size,
            self.offset_size,
        ))
    }

    /// The capacity table from the leaves up to `depth`.
    ///
    /// Refused by [`Refusal::DepthAboveLimit`] alone: any sizes have a table.
    ///
    /// ```
    /// use nuldrafon::{Geometry, Refusal};
    /// let info = Geometry::new(512, 11, 8).node_info(3)?;
    /// assert_eq!(info.max_nrec[..4], [45, 24, 22, 22]);
    /// assert_eq!(info.cum_max_nrec[..4], [45, 1_149, 26_449, 608_349]);
    /// assert_eq!(Geometry::default().node_info(33), Err(Refusal::DepthAboveLimit(33)));
    /// # Ok::<(), Refusal>(())
    /// ```
    pub fn node_info(&self, depth: u16) -> Result<NodeInfo, Refusal> {
        let answer = raw::node_info(self.node_size, self.record_size, self.offset_size, depth);
        accepted(&answer)?;
        let column = |i: usize| -> [u64; LEVELS] {
            std::array::from_fn(|level| answer[2 + i * LEVELS + level])
        };
        Ok(NodeInfo {
            max_nrec_size: answer[1] as u8,
            max_nrec: column(0),
            cum_max_nrec: column(1),
            cum_max_nrec_size: column(2).map(|width| width as u8),
        })
    }
}

impl Plan {
    /// The plan that a C function's answer holds.
    #[inline]
    pub(crate) fn told(answer: [u64; 5]) -> Result<Plan, Refusal> {
        accepted(&answer)?;
        let [_, depth, nodes, leaves, image_size] = answer;
        Ok(Plan {
            depth: depth as u16,
            nodes,
            leaves,
            image_size,
        })
    }
}
