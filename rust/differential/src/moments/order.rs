//! The order in which bytes become final, and the states of the image.

use std::cmp::Ordering::{Equal, Greater, Less};
use std::collections::{BTreeSet, HashSet};

use super::pieces::{pieces, Piece, FRONT};
use super::{Runs, Seen};
use crate::compare::Held;
use crate::model::{filled_to, joined, Fields};

/// Holds two runs to the fields of the nodes:
///
/// - after each instruction every byte is as it was lent, in both runs, or final in both; so none
///   changes twice;
/// - no byte of a piece is put before all pieces before it are final, over the whole image;
/// - where a piece ends, the image was seen filled up to there, and lent behind.
pub fn hold(nodes: &[Fields], runs: &Runs, seen: &mut Seen) -> Held {
    let image: Vec<u8> = nodes.iter().flat_map(|fields| joined(fields)).collect();
    let put = steps_of_bytes(&image, runs)?;
    let pieces = pieces(nodes);
    hold_order(pieces.iter().flatten(), &put, seen)?;
    let states = states(image.len(), runs);
    for (number, (fields, pieces)) in nodes.iter().zip(pieces).enumerate() {
        for budget in 1..=fields.len() {
            let met = states.contains(&filled(nodes, number, budget, runs));
            let ends = pieces.iter().any(|piece| piece.fields.end == budget);
            match (ends, met) {
                (true, true) => seen.pieces += 1,
                (true, false) => {
                    return Err(format!("node {number} is never filled to field {budget}"));
                }
                (false, _) if budget < FRONT => seen.front_fields.count(met),
                (false, _) => seen.leaf_records.count(met),
            }
        }
    }
    seen.writes += 1;
    seen.nodes += nodes.len() as u64;
    seen.bytes += image.len() as u64;
    seen.steps += u64::from(runs[0].log.steps);
    Ok(())
}

/// The step at which each byte of the image became final, the same in both runs.
fn steps_of_bytes(image: &[u8], runs: &Runs) -> Result<Vec<u32>, String> {
    if runs[0].log.steps != runs[1].log.steps {
        return Err("the runs take different steps".to_string());
    }
    let mut put = vec![0; image.len()];
    for run in runs {
        let mut now = vec![run.lent; image.len()];
        for change in &run.log.changes {
            let place = change.place as usize;
            let Some(&last) = image.get(place) else {
                return Err(format!("byte {place}, behind the image, is changed"));
            };
            if change.byte != last {
                return Err(format!("byte {place} is neither lent nor final"));
            }
            if put[place] != 0 && put[place] != change.step {
                return Err(format!("byte {place} is put at different steps"));
            }
            now[place] = last;
            put[place] = change.step;
        }
        if let Some(place) = (0..image.len()).find(|&place| now[place] != image[place]) {
            return Err(format!("byte {place} is never put"));
        }
    }
    Ok(put)
}

/// No byte is put before the pieces before its own are final.
fn hold_order<'a>(pieces: impl Iterator<Item = &'a Piece>, put: &[u32], seen: &mut Seen) -> Held {
    let mut last = 0;
    for piece in pieces {
        let before = last;
        for place in piece.places.clone() {
            if put[place] < before {
                return Err(format!("byte {place} is put before a piece before its own"));
            }
            seen.backwards += u64::from(put[place] < last);
            last = last.max(put[place]);
        }
    }
    Ok(())
}

/// The images of both runs, one behind the other, at every moment.
fn states(length: usize, runs: &Runs) -> HashSet<Vec<u8>> {
    let changes = runs.each_ref().map(|run| run.log.changes.as_slice());
    let steps: BTreeSet<u32> = changes.concat().iter().map(|change| change.step).collect();
    let mut now = runs.each_ref().map(|run| vec![run.lent; length]);
    let mut rest = changes;
    let mut states = HashSet::from([now.concat()]);
    for step in steps {
        for (now, rest) in now.iter_mut().zip(&mut rest) {
            let many = rest.iter().take_while(|change| change.step == step).count();
            let (changes, behind) = rest.split_at(many);
            for change in changes {
                now[change.place as usize] = change.byte;
            }
            *rest = behind;
        }
        states.insert(now.concat());
    }
    states
}

/// The images of both runs with one node filled to a budget, the nodes before it final, those
/// behind it lent.
fn filled(nodes: &[Fields], number: usize, budget: usize, runs: &Runs) -> Vec<u8> {
    let of_run = |lent: u8| {
        let of_node = move |(other, fields): (usize, &Fields)| {
            let budget = match other.cmp(&number) {
                Less => fields.len(),
                Equal => budget,
                Greater => 0,
            };
            filled_to(budget, fields, &vec![lent; joined(fields).len()])
        };
        nodes.iter().enumerate().flat_map(of_node)
    };
    runs.iter().flat_map(|run| of_run(run.lent)).collect()
}
