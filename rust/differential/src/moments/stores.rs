//! How often bytes are stored, where each is made what it was after every store.

use super::pieces::{pieces, By};
use super::{Runs, Seen};
use crate::compare::Held;
use crate::model::Fields;

/// No byte is stored twice, but for what a copy or a fill does within its piece: how such a
/// function of the compiler or of the C library stores is its own, and only counted.
///
/// A store of what was lent does not show, and is shown by the other run. The checksums are those
/// of lent bytes here, since the summed ones were put back.
pub fn hold(nodes: &[Fields], runs: &Runs, seen: &mut Seen) -> Held {
    let pieces = pieces(nodes);
    let length = pieces
        .iter()
        .flatten()
        .map(|piece| piece.places.len())
        .sum();
    let mut most = vec![0; length];
    for run in runs {
        let mut stores = vec![0; length];
        for change in &run.log.changes {
            let place = change.place as usize;
            let Some(count) = stores.get_mut(place) else {
                return Err(format!("byte {place}, behind the image, is stored"));
            };
            *count += 1;
            most[place] = most[place].max(*count);
        }
    }
    for piece in pieces.into_iter().flatten() {
        let mut again = piece.places.filter(|&place| most[place] > 1);
        match piece.by {
            By::Copy => seen.copied_again += again.count() as u64,
            By::Fill => seen.filled_again += again.count() as u64,
            By::Stores => {
                if let Some(place) = again.next() {
                    return Err(format!("byte {place} is stored again"));
                }
            }
        }
    }
    Ok(())
}
