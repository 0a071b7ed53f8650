//! Collecting: the families of cases.

use super::Collecting;
use crate::calls::based::Based;
use crate::compare::block;
use crate::compare::causes::{with_causes, with_high_bits};
use crate::compare::graft::{self, grafted};
use crate::compare::sample::{self, for_each, for_some_behind_blocks, Sample, Sizes};
use crate::compare::{same, Comparison, Held};
use crate::random::Random;

/// The room in which the trees of small files end, or are not given to the Rust.
const ROOM: usize = 1 << 16;
/// Trees at any geometry, made-up headers for each small file, files that end with a leaf, and random
/// graphs of nodes.
const TREES: usize = 10_000;
const HEADERS: usize = 4_000;
const ENDS: usize = 400;
const GRAPHS: usize = 120_000;
/// Images up to this long get every damage of a byte.
const EVERY_DAMAGE: usize = 300;

/// Whole files into outputs of every length around every number of records.
pub fn as_written(to: &mut Comparison, random: &mut Random) -> Held {
    for_each(to, random, |to, sample, _| {
        to.hold_whole("as written", sample)?;
        let size = usize::from(sample.tree.geometry.record_size);
        for records in 0..=sample.tree.total_records as usize {
            for extra in [0, 1, size - 1, size + 1] {
                let length = records * size + extra;
                to.hold("outputs", &of(sample, length))?;
            }
        }
        Ok(())
    })
}

/// Trees at any geometry: whole, into an output of any length, and damaged.
pub fn of_any_geometry(to: &mut Comparison, random: &mut Random) -> Held {
    for _ in 0..TREES {
        let Some(mut sample) = sample::any(to.by, random) else {
            continue;
        };
        to.hold_whole("any geometry", &sample)?;
        let whole = sample.records.len();
        let output = random.up_to(whole as u64) as usize;
        to.hold("any geometry", &of(&sample, output))?;
        let [_, image] = sample.parts();
        let place = image.start + random.up_to(image.len() as u64 - 1) as usize;
        sample.file[place] ^= 1 << random.up_to(7);
        to.hold("any geometry, damaged", &of(&sample, whole))?;
    }
    Ok(())
}

/// Every end of the file, without and with a block in front.
pub fn cut(to: &mut Comparison, random: &mut Random) -> Held {
    for_each(to, random, |to, sample, random| {
        to.hold_every_end("cut", &of(sample, sample.records.len()))?;
        sample.put_behind_a_block(random);
        to.hold_every_end("cut behind a block", &of(sample, sample.records.len()))
    })
}

/// Every end of files whose leaves stand behind all other nodes, without and with a block in front.
pub fn ending_in_a_leaf(to: &mut Comparison, random: &mut Random) -> Held {
    for _ in 0..ENDS {
        let (mut file, mut tree) = graft::ending_in_a_leaf(Random::bytes, random);
        let output = match random.up_to(3) {
            0 => random.up_to(60) as usize,
            _ => 4_000,
        };
        let case = Collecting::of(&file, &tree, output, ROOM);
        to.hold_every_end("ending in a leaf", &case)?;
        block::put_in_front(&mut file, &mut tree, random);
        let case = Collecting::of(&file, &tree, output, ROOM);
        to.hold_every_end("ending in a leaf behind a block", &case)?;
    }
    Ok(())
}

/// Each byte of the nodes changed, in every way in the smallest files and in some in the others,
/// into outputs that are mostly long enough.
pub fn damaged(to: &mut Comparison, random: &mut Random) -> Held {
    for_each(to, random, |to, sample, random| {
        let [_, image] = sample.parts();
        let turns: Vec<u8> = match image.len() {
            0..=EVERY_DAMAGE => (1..=0xff).collect(),
            _ => vec![1, 2, 4, 8, 16, 32, 64, 128, 0xff],
        };
        for place in image {
            for &turn in &turns {
                let output = match random.up_to(7) {
                    0 => random.up_to(sample.records.len() as u64) as usize,
                    _ => sample.records.len() + 100,
                };
                sample.file[place] ^= turn;
                to.hold("damaged", &of(sample, output))?;
                sample.file[place] ^= turn;
            }
        }
        Ok(())
    })
}

/// Headers with some numbers made up, over the small files, and figures above their fields' ranges.
pub fn with_made_up_headers(to: &mut Comparison, random: &mut Random) -> Held {
    for_each(to, random, |to, sample, random| {
        for _ in 0..HEADERS {
            let tree = &sample.made_up_header(random);
            let output = random.any_magnitude(2 * ROOM as u64) as usize;
            let room = of(sample, output).room;
            let mut case = Collecting::of(&sample.file, tree, output, room);
            if random.up_to(1) == 0 {
                case.header = with_high_bits(case.header, random);
            }
            to.hold("made-up headers", &case)?;
        }
        Ok(())
    })
}

/// Several causes at once, over the small files.
pub fn with_several_causes(to: &mut Comparison, random: &mut Random) -> Held {
    for_each(to, random, |to, sample, _| {
        for (file, tree) in with_causes(&sample.file, &sample.tree) {
            let case = Collecting::of(file, &tree, sample.records.len(), ROOM);
            to.hold("several causes", &case)?;
        }
        Ok(())
    })
}

/// Every base of the small files, and huge ones: the root at its address, and where it stands.
pub fn at_every_base(to: &mut Comparison, random: &mut Random) -> Held {
    for_each(to, random, |to, sample, _| {
        let whole = of(sample, sample.records.len());
        for base in block::every(sample.file.len()) {
            let mut case = whole.at(base);
            to.hold("every base", &case)?;
            case.header[4] = case.header[4].wrapping_sub(base);
            to.hold("every base", &case)?;
        }
        Ok(())
    })
}

/// Trees behind blocks, at any geometry: whole, into an output of any length, from other bases,
/// cut, and damaged.
pub fn behind_blocks(to: &mut Comparison, random: &mut Random) -> Held {
    for_some_behind_blocks(to, random, |to, sample, random| {
        to.hold_whole("behind blocks", sample)?;
        let length = sample.records.len();
        let short = random.up_to(length as u64) as usize;
        to.hold("behind blocks", &of(sample, short))?;
        let whole = of(sample, length);
        for base in block::some(sample.file.len(), random) {
            to.hold("other bases", &whole.at(base))?;
        }
        let [_, image] = sample.parts();
        let place = random.up_to(image.end as u64 - 1) as usize;
        let file = &sample.file[..place];
        to.hold("behind blocks, cut", &Collecting { file, ..whole })?;
        let place = image.start + random.up_to(image.len() as u64 - 1) as usize;
        sample.file[place] ^= 1 << random.up_to(7);
        to.hold("behind blocks, damaged", &of(sample, length))
    })
}

/// Nodes that point at one another at random, deep ones and shared ones among them.
pub fn of_random_graphs(to: &mut Comparison, random: &mut Random) -> Held {
    for _ in 0..GRAPHS {
        let (file, tree) = grafted(Random::bytes, random);
        let output = match random.up_to(3) {
            0 => random.any_magnitude(ROOM as u64) as usize,
            _ => 4_000,
        };
        to.hold("random graphs", &Collecting::of(&file, &tree, output, ROOM))?;
    }
    Ok(())
}

/// Trees of up to millions of records, of depth 1 to 4, and how often each is damaged or cut.
const LARGE: [(Sizes, usize); 7] = [
    (Sizes::new(65_536, 24, 8, 8, 5_500_000), 1),
    (Sizes::new(2_048, 8, 8, 8, 4_000_000), 2),
    (Sizes::new(4_096, 8, 8, 8, 2_000_000), 3),
    (Sizes::new(512, 11, 8, 8, 608_349), 8),
    (Sizes::new(512, 11, 4, 8, 1_000_000), 4),
    (Sizes::new(65_536, 24, 4, 8, 200_000), 20),
    (Sizes::new(100, 5, 4, 8, 200_000), 20),
];

/// Large files: whole, into a short output, cut anywhere, and with a bit or a byte turned anywhere.
pub fn of_many_records(to: &mut Comparison, random: &mut Random) -> Held {
    for (turn, (sizes, times)) in LARGE.into_iter().enumerate() {
        let sample = Sample::new(to.by, sizes, turn % 2 == 0, random);
        let mut sample = sample.ok_or("a large tree was refused")?;
        let [_, image] = sample.parts();
        let whole = sample.records.len();
        to.hold_whole("large", &sample)?;
        let short = random.up_to(whole as u64) as usize;
        to.hold("large", &of(&sample, short))?;
        for _ in 0..times {
            let place = image.start + random.up_to(image.len() as u64 - 1) as usize;
            let cut = Collecting {
                file: &sample.file[..place],
                ..of(&sample, whole)
            };
            to.hold("large, cut", &cut)?;
            let turn = [1 << random.up_to(7), 0xff][random.up_to(1) as usize];
            sample.file[place] ^= turn;
            to.hold("large, damaged", &of(&sample, whole))?;
            sample.file[place] ^= turn;
        }
    }
    Ok(())
}

/// The collecting of a sample's tree into an output of a length.
fn of(sample: &Sample, output_length: usize) -> Collecting<'_> {
    let room = ROOM.max(sample.records.len());
    Collecting::of(&sample.file, &sample.tree, output_length, room)
}

impl Comparison {
    /// Holds the collecting from every front of a file, the whole one too.
    fn hold_every_end(&mut self, class: &'static str, whole: &Collecting) -> Held {
        for length in 0..=whole.file.len() {
            let file = &whole.file[..length];
            self.hold(class, &Collecting { file, ..*whole })?;
        }
        Ok(())
    }

    /// Holds the collecting of a whole tree to what was written, too.
    fn hold_whole(&mut self, class: &'static str, sample: &Sample) -> Held {
        let (tree, whole) = (&sample.tree, sample.records.len());
        let collecting = of(sample, whole);
        self.hold(class, &collecting)?;
        let case = || format!("whole {tree:?}");
        let mut lent = [vec![0; whole]];
        let answer = self.by.answer(&collecting, &mut lent);
        let size = u64::from(tree.geometry.node_size);
        let nodes = (tree.root_address - sample.image_at as u64) / size + 1;
        let [number, _, _, records, leaves, internals, internal_records] = answer;
        same([number, records], [0, tree.total_records], "written:", case)?;
        same(&lent[0], &sample.records, "written:", case)?;
        if records > 0 {
            same(
                [leaves, leaves + internals],
                [internal_records + 1, nodes],
                "written:",
                case,
            )?;
        }
        Ok(())
    }
}
