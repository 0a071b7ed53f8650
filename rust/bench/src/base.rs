//! Files with a block in front: the calls with a base, and those of before on the part behind the
//! block.

use std::cell::RefCell;
use std::hint::black_box;

use nuldrafon::raw;

use crate::cases::{behind_a_block, Case, INPUT};
use crate::find::{Sorted, WHOLE};
use crate::plain;
use crate::timing::{Contender, Section, PART};

/// The bytes of the block, and what they are.
const BLOCK: usize = 1_000;
const OTHER: u8 = 0xa5;

/// The sizes of offsets and lengths that the files are written with.
const OW: u8 = 8;
const LW: u8 = 8;

pub fn run() {
    let title = "With a base, behind a block, and the part by itself, nanoseconds a call";
    let inputs: Vec<&str> = ["call"].into_iter().chain(INPUT).collect();
    let mut section = Section::new(title, &inputs);
    let files: Vec<Behind> = behind_a_block().map(Behind::new).collect();
    let usual = |file: &&Behind| file.case.record_count == 100_000;
    for file in files.iter().filter(usual) {
        file.parse(&mut section);
    }
    for file in &files {
        file.collect(&mut section);
    }
    for file in &files {
        file.find(&mut section);
    }
    for file in files.iter().filter(usual) {
        file.look(&mut section);
    }
}

/// A file with a block in front, what its header says, the base last, and a tree of the part.
struct Behind {
    case: Case,
    file: Vec<u8>,
    figures: [u64; 8],
    part: Sorted,
}

impl Behind {
    fn new(case: Case) -> Behind {
        let part = Sorted::new(&case);
        let file = [&[OTHER; BLOCK][..], &part.file].concat();
        let answer = raw::parse_at(&file, BLOCK as u64, 0, OW, LW);
        let [0, figures @ ..] = answer else {
            panic!("the header was written: {answer:?}");
        };
        Behind {
            case,
            file,
            figures,
            part,
        }
    }

    /// The same memory as the file's, so that both contenders read the same bytes.
    fn part(&self) -> &[u8] {
        &self.file[BLOCK..]
    }

    /// Times a call with a base and the one of before.
    fn row<A, B>(
        &self,
        section: &mut Section,
        call: &str,
        with_base: impl FnMut() -> A,
        part: impl FnMut() -> B,
    ) {
        let mut input = self.case.input();
        input.insert(0, call.to_string());
        let contenders = vec![
            Contender::new("with a base", with_base),
            Contender::new(PART, part),
        ];
        section.row(&input, 1, contenders);
    }

    fn parse(&self, section: &mut Section) {
        let (file, part) = (&self.file[..], self.part());
        let with_base = || raw::parse_at(black_box(file), BLOCK as u64, 0, OW, LW);
        let alone = || raw::parse(black_box(part), 0, OW, LW);
        assert_eq!(with_base()[..8], alone());
        self.row(section, "parse", with_base, alone);
    }

    fn collect(&self, section: &mut Section) {
        let (file, part, figures) = (&self.file[..], self.part(), &self.figures);
        let [kind, ns, rs, depth, root, in_root, in_all, _] = self.figures;
        // One output for both, so that neither has the better place in memory.
        let output = RefCell::new(vec![0; (in_all * rs) as usize]);
        let with_base = || {
            let output = &mut output.borrow_mut()[..];
            raw::collect_at(black_box(file), black_box(figures), OW, output)
        };
        let alone = || {
            let output = &mut output.borrow_mut()[..];
            raw::collect(
                black_box(part),
                kind as u8,
                ns as u32,
                rs as u16,
                depth as u16,
                root,
                in_root as u16,
                in_all,
                OW,
                output,
            )
        };
        assert_eq!(with_base(), alone());
        self.row(section, "collect", with_base, alone);
    }

    /// Each finds one key after another, half of all apart, so that neither reads nodes that the
    /// other has just brought into the cache.
    fn find(&self, section: &mut Section) {
        let (file, part, figures) = (&self.file[..], self.part(), &self.figures);
        let without_base = figures.first_chunk().expect("a base comes behind them");
        let (start, width) = (WHOLE.start, WHOLE.width);
        let with_base =
            |key| raw::find_at(black_box(file), black_box(figures), OW, start, width, key);
        let alone = |key| {
            raw::find(
                black_box(part),
                black_box(without_base),
                OW,
                start,
                width,
                key,
            )
        };
        let keys = &self.part.keys;
        for &key in &keys[..1_000] {
            assert_eq!(with_base(key), alone(key));
        }
        let from = |first: usize| {
            let mut i = first;
            move || {
                i = (i + 1) % keys.len();
                keys[i]
            }
        };
        let (mut key, mut other) = (from(0), from(keys.len() / 2));
        self.row(section, "find", || with_base(key()), || alone(other()));
    }

    /// The middle record of the longest leaf.
    fn look(&self, section: &mut Section) {
        let (file, part) = (&self.file[..], self.part());
        let size = self.case.geometry.record_size;
        let leaves = plain::leaves(part, &self.part.tree).into_iter();
        let leaf = leaves.max_by_key(|leaf| leaf.len());
        let leaf = leaf.expect("a leaf is there");
        let count = (leaf.len() - 6) as u16 / size;
        let (at, index) = (leaf.start as u64, u64::from(count / 2));
        let output = RefCell::new(vec![0; size.into()]);
        let with_base = || {
            let output = &mut output.borrow_mut()[..];
            raw::leaf_record_at(
                black_box(file),
                BLOCK as u64,
                at,
                count,
                size,
                index,
                output,
            )
        };
        let alone = || {
            let output = &mut output.borrow_mut()[..];
            raw::leaf_record(black_box(part), at, count, size, index, output)
        };
        assert_eq!(with_base(), alone());
        self.row(section, "leaf_record", with_base, alone);
    }
}
