//! A child module of the copy of btree_v2_write.rs: it reaches the private nodes of a plan.

use super::BTreeV2Plan;
use crate::Planned;

/// The figures of a plan.
pub(crate) fn planned(plan: &BTreeV2Plan) -> Planned {
    Planned {
        depth: plan.depth,
        nodes: plan.nodes.len() as u64,
        leaves: plan.nodes.iter().filter(|node| node.depth == 0).count() as u64,
        image_size: plan.nodes_size(),
    }
}
