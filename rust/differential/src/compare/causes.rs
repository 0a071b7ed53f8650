//! Headers that several tests before the root refuse, and figures above their fields' ranges.

use crate::inputs::Tree;
use crate::random::Random;

/// A header with every choice of causes, in its file and in an empty one: no records, a record size
/// of 0, a tree too deep, any offset size, a base beyond the file.
pub fn with_causes<'a>(file: &'a [u8], whole: &Tree) -> Vec<(&'a [u8], Tree)> {
    let mut trees = vec![*whole];
    trees = each(&trees, &[0, 1], |tree, total| tree.total_records *= total);
    trees = each(&trees, &[0, 1], |tree, records| {
        tree.root_records *= records as u16;
    });
    trees = each(&trees, &[0, 1], |tree, size| {
        tree.geometry.record_size *= size as u16;
    });
    let depth = u64::from(whole.depth);
    trees = each(&trees, &[depth, 33, 65_535], |tree, depth| {
        tree.depth = depth as u16;
    });
    let size = u64::from(whole.geometry.offset_size);
    trees = each(&trees, &[size, 0, 1, 3, 5, 6, 7, 9, 255], |tree, size| {
        tree.geometry.offset_size = size as u8;
    });
    let of_files = [file, &[]].map(|file| {
        let bases = [0, file.len() as u64 + 1];
        let trees = each(&trees, &bases, |tree, base| tree.base = base);
        trees.into_iter().map(move |tree| (file, tree))
    });
    of_files.into_iter().flatten().collect()
}

/// Each tree with each change.
fn each(trees: &[Tree], changes: &[u64], change: fn(&mut Tree, u64)) -> Vec<Tree> {
    let changed = trees.iter().flat_map(|&tree| {
        changes.iter().map(move |&by| {
            let mut tree = tree;
            change(&mut tree, by);
            tree
        })
    });
    changed.collect()
}

/// The figures with some made larger by multiples of their fields' ranges.
pub fn with_high_bits(mut figures: [u64; 8], random: &mut Random) -> [u64; 8] {
    for (place, bits) in [(0, 8), (1, 32), (2, 16), (3, 16), (5, 16)] {
        if random.up_to(1) == 0 {
            figures[place] += random.any_magnitude(u64::MAX >> bits) << bits;
        }
    }
    figures
}
