//! Finding: the families of cases.

use super::Search;
use crate::compare::block;
use crate::compare::causes::{with_causes, with_high_bits};
use crate::compare::graft::{self, grafted, Records};
use crate::compare::keyed::{self, any_field, around, limits, Order, ORDERS};
use crate::compare::sample::{any_sizes, small_sizes, Sample, Sizes};
use crate::compare::{Comparison, Held};
use crate::inputs::Field;
use crate::model::key_of;
use crate::random::Random;

/// Trees at any geometry, in files without and with a block, made-up headers for each small file,
/// files that end with a leaf, and random graphs of nodes.
const TREES: usize = 8_000;
const BLOCKS: usize = 2_000;
const HEADERS: usize = 2_000;
const ENDS: usize = 200;
const GRAPHS: usize = 100_000;
/// Images up to this long get every damage of a byte.
const EVERY_DAMAGE: usize = 130;

/// A written tree whose records have keys.
struct Keyed {
    sample: Sample,
    key: Field,
}

impl Keyed {
    /// A tree with keys that come in an order, in any field; none where the write is refused.
    fn new(
        to: &Comparison,
        (sizes, by_rust): (Sizes, bool),
        order: Order,
        random: &mut Random,
    ) -> Option<Keyed> {
        let key = any_field(sizes.geometry.record_size, random);
        Keyed::by(to, (sizes, by_rust), order, key, random)
    }

    fn by(
        to: &Comparison,
        (sizes, by_rust): (Sizes, bool),
        order: Order,
        key: Field,
        random: &mut Random,
    ) -> Option<Keyed> {
        let records = keyed::records(&sizes, key, order, random);
        let sample = Sample::of(to.by, sizes, by_rust, records, random)?;
        Some(Keyed { sample, key })
    }

    fn search(&self) -> Search<'_> {
        Search::of(&self.sample.file, &self.sample.tree, self.key)
    }

    /// The keys of the records, in order.
    fn keys(&self) -> Vec<u64> {
        let size = self.sample.tree.geometry.record_size;
        let records = self.sample.records.chunks(size.into());
        records.map(|record| key_of(record, self.key)).collect()
    }

    /// The key of the first record of the node that a place in the image belongs to, and one beside
    /// it.
    fn near(&self, place: usize) -> [u64; 2] {
        let node_size = self.sample.tree.geometry.node_size as usize;
        let node = place - (place - self.sample.image_at) % node_size;
        let own = key_of(&self.sample.file[node + 6..], self.key);
        [own, own.wrapping_add(1)]
    }

    /// So many keys: mostly of records, or beside them.
    fn some(&self, many: usize, random: &mut Random) -> Vec<u64> {
        let keys = self.keys();
        let one = |random: &mut Random| match (random.up_to(5), keys.len() as u64) {
            (0, _) | (_, 0) => limits(self.key)[random.up_to(5) as usize],
            (1, records) => {
                let own = keys[random.up_to(records - 1) as usize];
                let beside = around(own, self.key);
                beside[random.up_to(beside.len() as u64 - 1) as usize]
            }
            (_, records) => keys[random.up_to(records - 1) as usize],
        };
        (0..many).map(|_| one(random)).collect()
    }
}

/// Runs a check on every small tree with keys in each of some orders, by who is compared and by the
/// Rust.
fn for_each(
    to: &mut Comparison,
    random: &mut Random,
    orders: &[Order],
    mut check: impl FnMut(&mut Comparison, &mut Keyed, &mut Random) -> Held,
) -> Held {
    for sizes in small_sizes() {
        for &order in orders {
            let keyed = Keyed::new(to, sizes, order, random);
            check(to, &mut keyed.ok_or("a small tree was refused")?, random)?;
        }
    }
    Ok(())
}

/// Whole files: every key, and those around it.
pub fn as_written(to: &mut Comparison, random: &mut Random) -> Held {
    for_each(to, random, &ORDERS, |to, keyed, _| {
        let mut keys: Vec<u64> = keyed.keys();
        keys.sort_unstable();
        keys.dedup();
        let beside = keys.iter().flat_map(|&own| around(own, keyed.key));
        let all = beside.chain(limits(keyed.key));
        to.hold_finds("as written", keyed.search(), all)
    })
}

/// Sizes of trees for every field of a record.
const FIELDS: [Sizes; 4] = [
    Sizes::new(64, 9, 4, 8, 40),
    Sizes::new(40, 8, 8, 8, 8),
    Sizes::new(128, 20, 8, 8, 11),
    Sizes::new(30, 3, 2, 8, 30),
];

/// Every field of a record, and those just past the limits.
pub fn at_the_limits_of_fields(to: &mut Comparison, random: &mut Random) -> Held {
    for sizes in FIELDS {
        let size = u64::from(sizes.geometry.record_size);
        for order in ORDERS {
            for width in 1..=size.min(8) {
                for start in 0..=size - width {
                    let key = Field::new(start, width);
                    let keyed = Keyed::by(to, (sizes, start % 2 == 0), order, key, random);
                    let keyed = keyed.ok_or("a small tree was refused")?;
                    let keys = keyed.some(30, random);
                    to.hold_finds("fields", keyed.search(), keys)?;
                }
            }
            let keyed = Keyed::new(to, (sizes, false), order, random);
            let keyed = keyed.ok_or("a small tree was refused")?;
            for key in other_fields(size) {
                let search = Search {
                    key,
                    ..keyed.search()
                };
                let keys = keyed.some(3, random);
                to.hold_finds("other fields", search, keys)?;
            }
        }
    }
    Ok(())
}

/// Fields at the limits, most of them outside a record of this size.
fn other_fields(size: u64) -> Vec<Field> {
    const LAST: u64 = u64::MAX;
    let widths = [0, 1, 2, 7, 8, 9, 10, 255, 256, 257, LAST - 1, LAST];
    let mut fields: Vec<Field> = Vec::new();
    for width in widths {
        let end = size.saturating_sub(width);
        let starts = [0, end, end + 1, size - 1, size, size + 1, 65_536, 1 << 32];
        // With these the end is 0, or up to some bytes more, where it is cut to 64 bits.
        let wraps = [0, 1, size - 1, size].map(|end| end.wrapping_sub(width));
        let starts = starts.into_iter().chain(wraps).chain([LAST - 7, LAST]);
        fields.extend(starts.map(|start| Field::new(start, width)));
    }
    fields
}

/// Trees at any geometry, with keys in any order: whole, and damaged.
pub fn of_any_geometry(to: &mut Comparison, random: &mut Random) -> Held {
    for _ in 0..TREES {
        let (sizes, order) = (any_sizes(random), Order::any(random));
        let by_rust = random.up_to(1) == 0;
        let Some(mut keyed) = Keyed::new(to, (sizes, by_rust), order, random) else {
            continue;
        };
        let keys = keyed.some(20, random);
        to.hold_finds("any geometry", keyed.search(), keys)?;
        let [_, image] = keyed.sample.parts();
        let place = image.start + random.up_to(image.len() as u64 - 1) as usize;
        keyed.sample.file[place] ^= 1 << random.up_to(7);
        let keys = keyed.some(5, random);
        to.hold_finds("any geometry, damaged", keyed.search(), keys)?;
    }
    Ok(())
}

/// Every end of the file, without and with a block in front.
pub fn cut(to: &mut Comparison, random: &mut Random) -> Held {
    for_each(to, random, &[Order::Distinct], |to, keyed, random| {
        for class in ["cut", "cut behind a block"] {
            for length in 0..=keyed.sample.file.len() {
                let file = &keyed.sample.file[..length];
                let search = Search {
                    file,
                    ..keyed.search()
                };
                let keys = keyed.some(2, random);
                to.hold_finds(class, search, keys)?;
            }
            keyed.sample.put_behind_a_block(random);
        }
        Ok(())
    })
}

/// Every end of files whose leaves stand behind all other nodes, without and with a block in front.
/// The largest key leads to the last leaf.
pub fn ending_in_a_leaf(to: &mut Comparison, random: &mut Random) -> Held {
    for _ in 0..ENDS {
        let (mut file, mut tree) = graft::ending_in_a_leaf(Random::bytes, random);
        let key = any_field(tree.geometry.record_size, random);
        let [.., largest] = limits(key);
        for class in ["ending in a leaf", "ending in a leaf behind a block"] {
            for length in 0..=file.len() {
                let file = &file[..length];
                let keys = [largest, any_key(file, key, random)];
                to.hold_finds(class, Search::of(file, &tree, key), keys)?;
            }
            block::put_in_front(&mut file, &mut tree, random);
        }
    }
    Ok(())
}

/// Each byte of the nodes changed, in every way in the smallest files and in some in the others.
pub fn damaged(to: &mut Comparison, random: &mut Random) -> Held {
    for_each(to, random, &[Order::Equal], |to, keyed, random| {
        let [_, image] = keyed.sample.parts();
        let turns: Vec<u8> = match image.len() {
            0..=EVERY_DAMAGE => (1..=0xff).collect(),
            _ => vec![1, 16, 128, 0xff],
        };
        for place in image {
            for &turn in &turns {
                keyed.sample.file[place] ^= turn;
                let keys = keyed.some(2, random);
                to.hold_finds("damaged", keyed.search(), keys)?;
                keyed.sample.file[place] ^= turn;
            }
        }
        Ok(())
    })
}

/// Headers with some numbers made up, over the small files; figures above their fields' ranges, and
/// fields of any numbers.
pub fn with_made_up_headers(to: &mut Comparison, random: &mut Random) -> Held {
    let orders = [Order::Distinct, Order::Few];
    for_each(to, random, &orders, |to, keyed, random| {
        for turn in 0..HEADERS {
            let tree = match turn % 4 {
                0 => keyed.sample.tree,
                _ => keyed.sample.made_up_header(random),
            };
            let mut search = Search::of(&keyed.sample.file, &tree, keyed.key);
            if random.up_to(1) == 0 {
                search.header = with_high_bits(search.header, random);
            }
            if random.up_to(5) == 0 {
                let numbers = [(); 2].map(|()| random.any_magnitude(u64::MAX));
                search.key = Field::new(numbers[0], numbers[1]);
            }
            to.hold_finds("made-up headers", search, keyed.some(1, random))?;
        }
        Ok(())
    })
}

/// Several causes at once, over the small files, a wrong field among them.
pub fn with_several_causes(to: &mut Comparison, random: &mut Random) -> Held {
    for_each(to, random, &[Order::Distinct], |to, keyed, random| {
        let whole = keyed.sample.tree;
        let keys = keyed.some(1, random);
        for (file, tree) in with_causes(&keyed.sample.file, &whole) {
            let size = u64::from(whole.geometry.record_size);
            let wrong = [(0, 0), (size, 1), (0, 9), (u64::MAX, 1)];
            let wrong = wrong.map(|(start, width)| Field::new(start, width));
            for key in [keyed.key].into_iter().chain(wrong) {
                let search = Search::of(file, &tree, key);
                to.hold_finds("several causes", search, keys.iter().copied())?;
            }
        }
        Ok(())
    })
}

/// Every base of the small files, and huge ones: the root at its address, and where it stands.
pub fn at_every_base(to: &mut Comparison, random: &mut Random) -> Held {
    for_each(to, random, &[Order::Distinct], |to, keyed, random| {
        for base in block::every(keyed.sample.file.len()) {
            let mut search = keyed.search().at(base);
            let keys = keyed.some(2, random);
            to.hold_finds("every base", search, keys.clone())?;
            search.header[4] = search.header[4].wrapping_sub(base);
            to.hold_finds("every base", search, keys)?;
        }
        Ok(())
    })
}

/// Trees behind blocks, at any geometry, with keys in any order: whole, from other bases, cut, and
/// damaged.
pub fn behind_blocks(to: &mut Comparison, random: &mut Random) -> Held {
    for _ in 0..BLOCKS {
        let (sizes, order) = (any_sizes(random), Order::any(random));
        let by_rust = random.up_to(1) == 0;
        let Some(mut keyed) = Keyed::new(to, (sizes, by_rust), order, random) else {
            continue;
        };
        keyed.sample.put_behind_a_block(random);
        let keys = keyed.some(10, random);
        to.hold_finds("behind blocks", keyed.search(), keys)?;
        for base in block::some(keyed.sample.file.len(), random) {
            let keys = keyed.some(1, random);
            to.hold_finds("other bases", keyed.search().at(base), keys)?;
        }
        let [_, image] = keyed.sample.parts();
        let cut = Search {
            file: &keyed.sample.file[..random.up_to(image.end as u64 - 1) as usize],
            ..keyed.search()
        };
        let keys = keyed.some(3, random);
        to.hold_finds("behind blocks, cut", cut, keys.iter().copied())?;
        let place = image.start + random.up_to(image.len() as u64 - 1) as usize;
        keyed.sample.file[place] ^= 1 << random.up_to(7);
        to.hold_finds("behind blocks, damaged", keyed.search(), keys)?;
    }
    Ok(())
}

/// Nodes that point at one another at random, deep ones and shared ones among them, with any keys,
/// few keys or one.
pub fn of_random_graphs(to: &mut Comparison, random: &mut Random) -> Held {
    let few: Records = |random, length| {
        let bytes = random.bytes(length).into_iter();
        bytes.map(|byte| byte % 3).collect()
    };
    let one: Records = |_, length| vec![1; length];
    for turn in 0..GRAPHS {
        let records = [Random::bytes, few, few, one][turn % 4];
        let (file, tree) = grafted(records, random);
        let key = any_field(tree.geometry.record_size, random);
        let keys = [(); 3].map(|()| any_key(&file, key, random));
        to.hold_finds("random graphs", Search::of(&file, &tree, key), keys)?;
    }
    Ok(())
}

/// The number that some bytes of the file make, or one that few bytes of few values make.
fn any_key(file: &[u8], key: Field, random: &mut Random) -> u64 {
    let width = key.width as usize;
    let place = random.up_to(file.len() as u64) as usize;
    match file.get(place..place + width) {
        Some(bytes) if random.up_to(2) == 0 => key_of(bytes, Field::new(0, key.width)),
        _ => (0..width).fold(0, |high, _| high << 8 | random.up_to(2)),
    }
}

/// Trees of up to a million records, of depth 1 to 4, and how often each is damaged or cut.
const LARGE: [(Sizes, usize); 5] = [
    (Sizes::new(2_048, 8, 8, 8, 1_000_000), 2),
    (Sizes::new(512, 11, 8, 8, 100_000), 10),
    (Sizes::new(65_536, 24, 8, 8, 200_000), 10),
    (Sizes::new(100, 5, 4, 8, 200_000), 10),
    (Sizes::new(40, 8, 8, 8, 20_000), 20),
];

/// Large files with keys that never fall: whole, cut anywhere, and with a bit turned anywhere.
pub fn of_many_records(to: &mut Comparison, random: &mut Random) -> Held {
    for (turn, (sizes, times)) in LARGE.into_iter().enumerate() {
        for order in [Order::Distinct, Order::Equal] {
            let key = Field::new(0, u64::from(sizes.geometry.record_size).min(8));
            let keyed = Keyed::by(to, (sizes, turn % 2 == 0), order, key, random);
            let mut keyed = keyed.ok_or("a large tree was refused")?;
            let keys = keyed.some(300, random);
            to.hold_finds("large", keyed.search(), keys)?;
            let [_, image] = keyed.sample.parts();
            for _ in 0..times {
                let place = image.start + random.up_to(image.len() as u64 - 1) as usize;
                let keys = keyed.some(10, random).into_iter().chain(keyed.near(place));
                let cut = Search {
                    file: &keyed.sample.file[..place],
                    ..keyed.search()
                };
                to.hold_finds("large, cut", cut, keys.clone())?;
                let turn = 1 << random.up_to(7);
                keyed.sample.file[place] ^= turn;
                to.hold_finds("large, damaged", keyed.search(), keys)?;
                keyed.sample.file[place] ^= turn;
            }
        }
    }
    Ok(())
}
