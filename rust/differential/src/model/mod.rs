//! A second implementation of the calls, from documents 01 and 02 alone: plain before quick.
//!
//! It shares no code with the wrapper or the oracle. An answer is accepted figures or a refusal.

mod base;
mod collect;
mod fields;
mod find;
mod header;
mod leaf;
mod lookup3;
mod nodes;
mod numbers;
mod plan;
mod record;
mod refusal;
mod table;
mod write;

pub use collect::{collect, Collected, Counts};
pub use fields::{filled_to, joined, Fields};
pub use find::{find, fits, key_of, list, Found, Listed};
pub use header::parse;
pub use leaf::leaf_record;
pub use lookup3::lookup3;
pub use nodes::{Nodes, TestedNode};
pub use numbers::{largest, width};
pub use plan::{plan, Node, Plan, MOST_RECORDS};
pub use record::{record_read, record_write};
pub use refusal::{Answer, Refusal};
pub use table::{table, Geometry, Table, LEVEL_LIMIT};
pub use write::{fields_of_nodes, header_size, write};
