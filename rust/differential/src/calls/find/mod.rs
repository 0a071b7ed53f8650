//! Finding: its cases.

mod families;
mod faults;

use std::fmt;

use nuldrafon::raw;

use super::based::{Based, OfTree};
use super::case::{array, within_leaf_checksum, Case, Fault, Told, WITHIN_LEAF_CHECKSUM};
use super::collect::Collecting;
use super::typed;
use crate::compare::bytes::{beginning, same_bytes};
use crate::compare::{same, Comparison, Held};
use crate::inputs::{Field, Tree};
use crate::model;
pub use families::{
    as_written, at_every_base, at_the_limits_of_fields, behind_blocks, cut, damaged,
    ending_in_a_leaf, of_any_geometry, of_many_records, of_random_graphs, with_made_up_headers,
    with_several_causes,
};

/// Where a key is looked for: a file, a header's figures as they go over, the offset size, and the
/// field of the key.
#[derive(Clone, Copy)]
pub struct Search<'a> {
    pub file: &'a [u8],
    pub header: [u64; 8],
    pub offset_size: u8,
    pub key: Field,
}

impl<'a> Search<'a> {
    pub fn of(file: &'a [u8], tree: &Tree, key: Field) -> Search<'a> {
        Search {
            file,
            header: tree.figures(),
            offset_size: tree.geometry.offset_size,
            key,
        }
    }

    /// The same with another base.
    fn at(&self, base: u64) -> Search<'a> {
        let mut other = *self;
        other.header[7] = base;
        other
    }

    /// The header that the figures come to.
    fn tree(&self) -> Tree {
        Tree::of_figures(self.header, self.offset_size)
    }
}

/// A find, and what collecting says of the same tree where that was asked.
#[derive(Clone, Copy)]
pub struct Finding<'a> {
    pub search: Search<'a>,
    pub sought: u64,
    pub collected: Option<&'a Collected>,
}

/// What a collecting of the tree came to, and whether the Rust gave the same.
pub struct Collected {
    due: Due,
    by_rust: bool,
}

/// What a collecting says of the finds in its tree.
enum Due {
    /// It is accepted and the keys never fall: the key and the place of each record, and the nodes
    /// that a find reads.
    Listed {
        records: Vec<(u64, u64)>,
        nodes: u64,
    },
    /// It is refused before a node is read, by these numbers; so is the find.
    Refused([u64; 3]),
    /// Nothing.
    Open,
}

impl Collected {
    /// The answer that is due to a find, where collecting says so: that of a search through all
    /// records, one by one.
    fn due(&self, sought: u64) -> Option<[u64; 6]> {
        match &self.due {
            Due::Listed { records, nodes } => {
                let first = records.iter().find(|(key, _)| *key == sought);
                let place = first.map_or(0, |(_, place)| *place);
                Some([0, 0, 0, *nodes, first.is_some().into(), place])
            }
            Due::Refused([number, first, second]) => Some([*number, *first, *second, 0, 0, 0]),
            Due::Open => None,
        }
    }
}

impl fmt::Display for Finding<'_> {
    fn fmt(&self, to: &mut fmt::Formatter) -> fmt::Result {
        write!(
            to,
            "{} by {:?} of {:?}, offset size {}, {}",
            self.sought,
            self.search.key,
            self.search.header,
            self.search.offset_size,
            beginning(self.search.file),
        )
    }
}

impl Based for Finding<'_> {
    fn file(&self) -> &[u8] {
        self.search.file
    }

    fn base(&self) -> u64 {
        self.search.header[7]
    }

    fn at(&self, base: u64) -> Self {
        Finding {
            search: self.search.at(base),
            ..*self
        }
    }
}

impl OfTree for Finding<'_> {
    fn tree(&self) -> Tree {
        self.search.tree()
    }
}

impl Case for Finding<'_> {
    type Answer = [u64; 6];
    type Lent = [Vec<u8>; 0];

    fn lend(&self) -> Self::Lent {
        []
    }

    fn rattle(&self, _: &mut Self::Lent) -> Self::Answer {
        let Search {
            file,
            header,
            offset_size,
            key,
        } = self.search;
        let Field { start, width } = key;
        raw::find_at(file, &header, offset_size, start, width, self.sought)
    }

    fn typed(&self, _: &mut Self::Lent) -> Self::Answer {
        let Search { file, key, .. } = self.search;
        let key = nuldrafon::Field::new(key.start, key.width);
        match typed::header(&self.search.tree()).find(file, key, self.sought) {
            Ok(found) => numbers([0; 3], found.nodes, found.place),
            Err(error) => numbers(error.refusal.told(), error.nodes, None),
        }
    }

    fn model(&self, _: &mut Self::Lent) -> Self::Answer {
        let found = self.found();
        let told = array(found.answer.map(|_| []));
        numbers(told, found.nodes, found.answer.unwrap_or(None))
    }

    fn without_base(&self, _: &mut Self::Lent) -> Option<Self::Answer> {
        let Search {
            header: [figures @ .., _],
            offset_size,
            key: Field { start, width },
            ..
        } = self.search;
        let part = self.part()?;
        Some(raw::find(
            part,
            &figures,
            offset_size,
            start,
            width,
            self.sought,
        ))
    }

    fn outcome(&self, answer: &Self::Answer) -> Option<&'static str> {
        match answer {
            [0, _, _, 0, ..] => Some("empty"),
            [0, _, _, _, 0, _] => Some("not found"),
            [0, ..] => Some("found"),
            [1, ..] => within_leaf_checksum(self.found().answer).then_some(WITHIN_LEAF_CHECKSUM),
            _ => None,
        }
    }

    fn hold_to_rust(&self, ours: &Self::Answer, _: &Self::Lent) -> Option<Held> {
        let collected = self.collected.filter(|collected| collected.by_rust)?;
        let due = collected.due(self.sought)?;
        Some(same(*ours, due, "the Rust's records say", || {
            self.to_string()
        }))
    }

    /// What every answer keeps to, and a search through all records where collecting gives them.
    fn hold_others(&self, ours: &Self::Answer, _: &Self::Lent) -> Held {
        let case = || self.to_string();
        let tree = self.search.tree();
        let [number, _, _, nodes, found, place] = *ours;
        let levels = match tree.is_empty() {
            true => 0,
            false => u64::from(tree.depth) + 1,
        };
        let due = match number {
            0 => (levels, found),
            _ => (nodes.min(levels.saturating_sub(1)), 0),
        };
        same((nodes, found), due, "nodes and found are due as", case)?;
        match found {
            0 => same(place, 0, "a place of nothing", case)?,
            _ => {
                let size = usize::from(tree.geometry.record_size);
                let place = place as usize;
                let record = self.part().and_then(|part| part.get(place..place + size));
                let own = record.map(|record| model::key_of(record, self.search.key));
                same(own, Some(self.sought), "the record found has", case)?;
            }
        }
        match self.collected.and_then(|all| all.due(self.sought)) {
            Some(due) => same(*ours, due, "the collected records say", case),
            None => Ok(()),
        }
    }

    fn faults() -> Vec<Fault<Self>> {
        faults::faults()
    }
}

impl Finding<'_> {
    /// What the model finds.
    fn found(&self) -> model::Found {
        let Search { file, key, .. } = self.search;
        model::find(file, &self.search.tree(), key, self.sought)
    }
}

/// An answer's numbers.
fn numbers([number, first, second]: [u64; 3], nodes: u64, place: Option<u64>) -> [u64; 6] {
    let found = u64::from(place.is_some());
    [number, first, second, nodes, found, place.unwrap_or(0)]
}

impl Comparison {
    /// Looks for keys in a file, and holds what comes to a search through all records, where the
    /// tree can be collected and its keys never fall.
    pub fn hold_finds(
        &mut self,
        class: &'static str,
        search: Search,
        keys: impl IntoIterator<Item = u64>,
    ) -> Held {
        let collected = self.collected(&search)?;
        for sought in keys {
            let finding = Finding {
                search,
                sought,
                collected: Some(&collected),
            };
            self.hold(class, &finding)?;
        }
        Ok(())
    }

    /// Lists the records by the model, and holds the list to the collected records. Small files
    /// can hold trees of very many records: such are not listed.
    fn collected(&self, search: &Search) -> Result<Collected, String> {
        const MOST: u64 = 4_096;
        let (file, tree) = (search.file, &search.tree());
        let most = MOST.max(tree.total_records.min(file.len() as u64));
        let listed = model::list(file, tree, most as usize);
        let size = usize::from(tree.geometry.record_size);
        let collecting = Collecting {
            file,
            header: search.header,
            offset_size: search.offset_size,
            output_length: listed.records.len() * size,
            room: 0,
        };
        let lent = &mut [vec![0; collecting.output_length]];
        let answer = self.by.answer(&collecting, lent);
        if answer[0] == 15 {
            return Ok(Collected {
                due: Due::Open,
                by_rust: false,
            });
        }
        let case = || format!("a list of {collecting}");
        let told: [u64; 3] = array(listed.answer.map(|()| []));
        same(&told[..], &answer[..3], "collecting", case)?;
        let bytes: Vec<&[u8]> = listed.records.iter().map(|(_, record)| *record).collect();
        same_bytes(&bytes.concat(), &lent[0], "the collected records", case)?;
        let held_to_rust = match oracle::AVAILABLE {
            true => collecting.hold_to_rust(&answer, lent),
            false => None,
        };
        let by_rust = held_to_rust.is_some();
        held_to_rust.unwrap_or(Ok(()))?;
        let places = listed.records.iter().map(|(place, _)| *place);
        Ok(Collected {
            due: Due::of(&answer, &lent[0], places, search),
            by_rust,
        })
    }
}

impl Due {
    /// What the numbers of a collecting say, its records and their places.
    fn of(
        answer: &[u64; 7],
        collected: &[u8],
        places: impl Iterator<Item = u64>,
        search: &Search,
    ) -> Due {
        let (tree, key) = (search.tree(), search.key);
        let [number, first, second, _, leaves, internals, _] = *answer;
        let size = usize::from(tree.geometry.record_size);
        match (number, leaves + internals) {
            (0, 0) => Due::Listed {
                records: Vec::new(),
                nodes: 0,
            },
            _ if !model::fits(key, size) => Due::Open,
            (0, _) => {
                let keys = collected
                    .chunks(size)
                    .map(|record| model::key_of(record, key));
                let records: Vec<(u64, u64)> = keys.zip(places).collect();
                match records.is_sorted_by_key(|(key, _)| *key) {
                    true => Due::Listed {
                        records,
                        nodes: u64::from(tree.depth) + 1,
                    },
                    false => Due::Open,
                }
            }
            (_, 0) => Due::Refused([number, first, second]),
            _ => Due::Open,
        }
    }
}
