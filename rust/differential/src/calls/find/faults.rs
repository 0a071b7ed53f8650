//! Faults of a find, for the suite to notice.

use super::{numbers, Finding, Search};
use crate::calls::based::{self, Based};
use crate::calls::case::{refuse, Told};
use crate::calls::{Case, Fault};
use crate::compare::keyed::most;
use crate::inputs::Field;
use crate::model::{self, Nodes};

/// A find step by step, so that one step can go wrong.
struct Way {
    /// Whether a field is let through for records of a size.
    fits: fn(Field, usize) -> bool,
    /// The number that the bytes of a field make.
    number: fn(&[u8]) -> u64,
    /// The bounding record among the keys of a node; their number where there is none.
    bound: fn(&[u64], u64) -> usize,
    /// The child taken, by the bounding record.
    child: fn(usize) -> usize,
    /// What is kept, of what was kept before and the bounding record.
    keep: fn(Option<u64>, Bounding) -> Option<u64>,
}

/// The bounding record of a node.
struct Bounding {
    level: u16,
    index: usize,
    place: u64,
    /// The place of its key.
    key_place: u64,
    key: u64,
    sought: u64,
}

const RIGHT: Way = Way {
    fits: model::fits,
    number: |bytes| number(bytes.iter().rev()),
    bound: first_not_below,
    child: |bound| bound,
    keep: |kept, record| match record.key == record.sought {
        true => Some(record.place),
        false => kept,
    },
};

/// The number of digits to 256, the highest first.
fn number<'a>(digits: impl Iterator<Item = &'a u8>) -> u64 {
    digits.fold(0, |high, &low| high << 8 | u64::from(low))
}

fn first_not_below(keys: &[u64], sought: u64) -> usize {
    let bound = keys.iter().position(|&key| key >= sought);
    bound.unwrap_or(keys.len())
}

impl Way {
    /// The answer of a find that goes this way.
    fn find(&self, case: &Finding) -> [u64; 6] {
        let Search { file, key, .. } = case.search;
        let (tree, sought) = (case.search.tree(), case.sought);
        let part = case.part().unwrap_or_default();
        let nodes = match Nodes::of(file, &tree) {
            Ok(Some(nodes)) if (self.fits)(key, nodes.record_size()) => nodes,
            _ => return case.model(&mut []),
        };
        let size = nodes.record_size() as u64;
        let (mut read, mut kept) = (0, None);
        let (mut address, mut count) = (tree.root_address, tree.root_records);
        for level in (0..=tree.depth).rev() {
            let node = match nodes.read(level, address, count) {
                Ok(node) => node,
                Err(refusal) => return numbers(refusal.told(), read, None),
            };
            read += 1;
            let place = |index: usize| node.place + index as u64 * size;
            let key_place = |index| place(index).wrapping_add(key.start);
            let keys: Vec<u64> = (0..count.into())
                .map(|index| (self.number)(&bytes(part, key_place(index), key.width)))
                .collect();
            let index = (self.bound)(&keys, sought);
            if let Some(&key) = keys.get(index) {
                let record = Bounding {
                    level,
                    index,
                    place: place(index),
                    key_place: key_place(index),
                    key,
                    sought,
                };
                kept = (self.keep)(kept, record);
            }
            if level > 0 {
                let last = node.children.len() - 1;
                (address, count) = node.children[(self.child)(index).min(last)];
            }
        }
        numbers([0; 3], read, kept)
    }

    /// Puts this way's answer in the place of the right one.
    fn spoil(&self, case: &Finding, answer: &mut [u64; 6]) {
        assert_eq!(RIGHT.find(case), *answer, "the right way is not right");
        *answer = self.find(case);
    }
}

/// Bytes of a file, zeros where it has none.
fn bytes(file: &[u8], place: u64, width: u64) -> Vec<u8> {
    let places = (0..width).map(|i| place.wrapping_add(i) as usize);
    places
        .map(|at| file.get(at).copied().unwrap_or(0))
        .collect()
}

pub fn faults<'a>() -> Vec<Fault<Finding<'a>>> {
    let mut faults = based::faults_of_trees();
    faults.extend(of_the_base());
    faults.extend(of_the_bound());
    faults.extend(of_what_is_kept());
    faults.extend(of_fields());
    faults.extend(of_the_tests());
    faults.extend(of_answers());
    faults.extend(based::faults_of_leaves());
    faults
}

/// The base, beside the faults that every read of a tree has.
fn of_the_base<'a>() -> Vec<Fault<Finding<'a>>> {
    vec![
        Fault::<Finding>::both("the base added to the place", |case, answer, _| {
            answer[5] += answer[4] * case.base();
        }),
        Fault::<Finding>::model_alone("18 after 17", |case, answer, lent| {
            let tree = case.search.tree();
            let fits = model::fits(case.search.key, tree.geometry.record_size.into());
            if answer[0] == 18 && !tree.is_empty() && !fits {
                refuse(case, [17, 0, 0], answer, lent);
            }
        }),
    ]
}

/// The record that bounds, and the child taken.
fn of_the_bound<'a>() -> Vec<Fault<Finding<'a>>> {
    vec![
        Fault::<Finding>::both("an equal key does not bound", |case, answer, _| {
            let bound = |keys: &[u64], sought| keys.partition_point(|&key| key <= sought);
            Way { bound, ..RIGHT }.spoil(case, answer);
        }),
        Fault::<Finding>::model_alone("a binary search inside a node", |case, answer, _| {
            let bound = |keys: &[u64], sought| keys.partition_point(|&key| key < sought);
            Way { bound, ..RIGHT }.spoil(case, answer);
        }),
        Fault::<Finding>::both("the last of equal keys bounds", |case, answer, _| {
            let bound = |keys: &[u64], sought| {
                let last = keys.iter().rposition(|&key| key == sought);
                last.unwrap_or(first_not_below(keys, sought))
            };
            Way { bound, ..RIGHT }.spoil(case, answer);
        }),
        Fault::<Finding>::both("the child after the bound", |case, answer, _| {
            let child = |bound| bound + 1;
            Way { child, ..RIGHT }.spoil(case, answer);
        }),
    ]
}

/// The record that is kept on the way.
fn of_what_is_kept<'a>() -> Vec<Fault<Finding<'a>>> {
    vec![
        Fault::<Finding>::both("kept from the leaf alone", |case, answer, _| {
            let keep = |_, record: Bounding| match (record.level, record.key == record.sought) {
                (0, true) => Some(record.place),
                _ => None,
            };
            Way { keep, ..RIGHT }.spoil(case, answer);
        }),
        Fault::<Finding>::model_alone("cleared by a larger key", |case, answer, _| {
            let keep = |_, record: Bounding| match record.key == record.sought {
                true => Some(record.place),
                false => None,
            };
            Way { keep, ..RIGHT }.spoil(case, answer);
        }),
        Fault::<Finding>::both("the first kept, not the last", |case, answer, _| {
            let keep = |kept: Option<u64>, record| kept.or((RIGHT.keep)(None, record));
            Way { keep, ..RIGHT }.spoil(case, answer);
        }),
        Fault::<Finding>::both("an index for a place", |case, answer, _| {
            let keep = |kept, record: Bounding| {
                let place = record.index as u64;
                (RIGHT.keep)(kept, Bounding { place, ..record })
            };
            Way { keep, ..RIGHT }.spoil(case, answer);
        }),
        Fault::<Finding>::both("the key's place for the record's", |case, answer, _| {
            let keep = |kept, record: Bounding| {
                let place = record.key_place;
                (RIGHT.keep)(kept, Bounding { place, ..record })
            };
            Way { keep, ..RIGHT }.spoil(case, answer);
        }),
    ]
}

/// The field of the key.
fn of_fields<'a>() -> Vec<Fault<Finding<'a>>> {
    vec![
        Fault::<Finding>::model_alone("a width of 0 let through", |case, answer, _| {
            let fits = |key: Field, size| {
                let end = key.start.checked_add(key.width);
                key.width <= 8 && end.is_some_and(|end| end <= size as u64)
            };
            Way { fits, ..RIGHT }.spoil(case, answer);
        }),
        Fault::<Finding>::model_alone("a start that wraps", |case, answer, _| {
            let fits = |key: Field, size| {
                let end = key.start.wrapping_add(key.width);
                (1..=8).contains(&key.width) && end <= size as u64
            };
            Way { fits, ..RIGHT }.spoil(case, answer);
        }),
        Fault::<Finding>::model_alone("a width of 9 let through", |case, answer, _| {
            let fits = |key: Field, size| {
                let end = u128::from(key.start) + u128::from(key.width);
                (1..=9).contains(&key.width) && end <= size as u128
            };
            Way { fits, ..RIGHT }.spoil(case, answer);
        }),
        Fault::<Finding>::both("the high byte first", |case, answer, _| {
            let number = |bytes: &[u8]| number(bytes.iter());
            Way { number, ..RIGHT }.spoil(case, answer);
        }),
        Fault::<Finding>::both("a key cut to its field", |case, answer, _| {
            if model::fits(case.search.key, usize::MAX) {
                let cut = Finding {
                    sought: case.sought & most(case.search.key),
                    ..*case
                };
                *answer = cut.model(&mut []);
            }
        }),
    ]
}

/// The tests before the root, and their order.
fn of_the_tests<'a>() -> Vec<Fault<Finding<'a>>> {
    vec![
        Fault::<Finding>::model_alone("17 before 16", |case, answer, _| {
            let size = case.search.tree().geometry.record_size;
            if answer[0] == 16 && !model::fits(case.search.key, size.into()) {
                *answer = [17, 0, 0, 0, 0, 0];
            }
        }),
        Fault::<Finding>::model_alone("17 before 8", |case, answer, _| {
            if answer[0] == 8 && !(1..=8).contains(&case.search.key.width) {
                *answer = [17, 0, 0, 0, 0, 0];
            }
        }),
        Fault::<Finding>::model_alone("16 before 8", |case, answer, _| {
            let depth = case.search.tree().depth;
            if answer[0] == 8 && depth > 32 {
                *answer = [16, depth.into(), 0, 0, 0, 0];
            }
        }),
        Fault::<Finding>::model_alone("17 before an empty tree", |case, answer, _| {
            let size = case.search.tree().geometry.record_size;
            if *answer == [0; 6] && !model::fits(case.search.key, size.into()) {
                answer[0] = 17;
            }
        }),
        Fault::<Finding>::model_alone("a node before 17", |_, answer, _| {
            if answer[0] == 17 {
                *answer = [1, 6, 0, 0, 0, 0];
            }
        }),
        Fault::<Finding>::model_alone("an offset size tested above a leaf", |case, answer, _| {
            let tree = case.search.tree();
            let size = tree.geometry.offset_size;
            if tree.depth == 0 && answer[3] == 1 && ![2, 4, 8].contains(&size) {
                *answer = [4, size.into(), 0, 0, 0, 0];
            }
        }),
        Fault::<Finding>::model_alone("a depth above its field's range", |case, answer, _| {
            let depth = case.search.header[3];
            if depth > u16::MAX.into() && answer[3] > 0 {
                *answer = [16, depth, 0, 0, 0, 0];
            }
        }),
    ]
}

/// The numbers of the answer.
fn of_answers<'a>() -> Vec<Fault<Finding<'a>>> {
    vec![
        Fault::<Finding>::both("a node counted before its tests", |_, answer, _| {
            answer[3] += u64::from([1, 2, 4, 6].contains(&answer[0]));
        }),
        Fault::<Finding>::both("the leaf not counted", |_, answer, _| {
            answer[3] -= u64::from(answer[0] == 0 && answer[3] > 0);
        }),
        Fault::<Finding>::both("found and place exchanged", |_, answer, _| {
            answer.swap(4, 5);
        }),
        Fault::<Finding>::model_alone("something found by a refused find", |_, answer, _| {
            if answer[0] == 6 && answer[3] > 0 {
                answer[4] = 1;
            }
        }),
        Fault::<Finding>::model_alone("a node read of an empty tree", |_, answer, _| {
            answer[3] += u64::from(*answer == [0; 6]);
        }),
    ]
}
