//! Reads trees that the HDF5 library wrote, and has the library read ours in their place.

mod bytes;
mod check;
mod find;
mod graft;
mod lexists;
mod library;
mod list;
mod meaning;
mod superblock;
mod tree;

use std::fs;
use std::path::{Path, PathBuf};
use std::process::ExitCode;

use bytes::{same, Fault};
use find::Finds;
use graft::{Written, DAMAGES};
use library::{files_py, Folder};
use list::{Entries, List};
use meaning::Meanings;
use tree::Tree;

/// Trees of up to so many records are also damaged, in every way and at nodes of this size.
const MOST_DAMAGED: u64 = 1_000;
const DAMAGED_NODE_SIZE: u32 = 300;

/// Trees of up to so many records are also changed by the library, at nodes of these sizes. In
/// nodes of 160 bytes and fewer the library fails to change even its own trees.
const MOST_GROWN: u64 = 10_000;
const GROWN_NODE_SIZES: [u32; 4] = [300, 512, 2_048, 65_536];

/// The file in which lookups by name are timed.
const TIMED: &str = "links-100000-8-8";

/// What was done: files of the library's that were read, files with our trees that it read, files
/// that it changed and ours read again, and damages that were noticed.
#[derive(Default)]
struct Done {
    real: usize,
    grafts: usize,
    grown: usize,
    damages: usize,
}

impl Done {
    fn add(&mut self, other: &Done) {
        self.real += other.real;
        self.grafts += other.grafts;
        self.grown += other.grown;
        self.damages += other.damages;
    }

    fn print(&self, of: &str) -> Result<(), Fault> {
        println!(
            "{of}: {} of the library's read, {} with our trees read by the library, {} changed by \
             it and read again, {} damages noticed",
            self.real, self.grafts, self.grown, self.damages
        );
        // A run over no files would show nothing.
        same(
            "something done",
            self.grafts * self.grown * self.damages > 0,
            true,
        )
    }
}

/// What was seen in files: the finds, and the records of the library's trees by their meaning.
#[derive(Clone, Copy, Default)]
struct Seen {
    finds: Finds,
    meanings: Meanings,
}

impl Seen {
    fn add(&mut self, other: Seen) {
        self.finds.add(other.finds);
        self.meanings.add(other.meanings);
    }
}

/// A real file, read.
struct Real {
    name: String,
    bytes: Vec<u8>,
    list: List,
    trees: Vec<Tree>,
    seen: Seen,
}

fn main() -> ExitCode {
    match run() {
        Ok(()) => ExitCode::SUCCESS,
        Err(fault) => {
            eprintln!("real HDF5 files: {fault}");
            ExitCode::FAILURE
        }
    }
}

fn run() -> Result<(), Fault> {
    let folder = Folder::new()?;
    let made = folder.inner("real")?;
    files_py("make", &[&made])?;
    println!(
        "type  records  sizes  block  library: node size, depth, nodes   \
         ours: node size/depth/nodes"
    );
    let (mut done, mut behind) = (Done::default(), Done::default());
    let mut seen = Seen::default();
    for path in listed(made.path())? {
        let mut real = Real::read(&path)?;
        let of_this = real.hold(&folder, &made, &path, &mut seen)?;
        done.add(&of_this);
        if real.list.sizes.block > 0 {
            behind.add(&of_this);
        }
    }
    done.print("files")?;
    behind.print("of these behind a block, where with base 0 no tree comes out")?;
    let Finds {
        found,
        shared,
        absent,
    } = seen.finds;
    println!(
        "{found} records found by their keys, {shared} of them those of another name with the same \
         hash; {absent} keys that are not there"
    );
    seen.meanings.print()
}

/// The files of the folder that have a list, in order.
fn listed(folder: &Path) -> Result<Vec<PathBuf>, Fault> {
    let entries = fs::read_dir(folder).map_err(|e| e.to_string())?;
    let paths = entries.filter_map(|entry| Some(entry.ok()?.path()));
    let mut paths: Vec<PathBuf> = paths
        .filter(|path| path.extension().is_some_and(|e| e == "h5"))
        .collect();
    paths.sort();
    Ok(paths)
}

impl Real {
    /// Reads a file and holds it to its list.
    fn read(path: &Path) -> Result<Self, Fault> {
        Self::try_read(path).map_err(|fault| format!("{}: {fault}", path.display()))
    }

    fn try_read(path: &Path) -> Result<Self, Fault> {
        let bytes = fs::read(path).map_err(|e| e.to_string())?;
        let text = fs::read_to_string(path.with_extension("txt")).map_err(|e| e.to_string())?;
        let list = List::read(&text)?;
        let sizes = superblock::read(&bytes)?;
        same("sizes", sizes, list.sizes)?;
        let trees = tree::trees(&bytes, sizes)?;
        let stem = path.file_stem().unwrap_or_default();
        let mut real = Self {
            name: stem.to_string_lossy().into_owned(),
            bytes,
            list,
            trees,
            seen: Seen::default(),
        };
        real.seen = real.check()?;
        Ok(real)
    }

    /// Everything that is done with the file.
    fn hold(
        &mut self,
        folder: &Folder,
        made: &Folder,
        path: &Path,
        seen: &mut Seen,
    ) -> Result<Done, Fault> {
        seen.add(self.seen);
        let ours = folder.inner("ours")?;
        let written = self.graft_all(&ours, &mut seen.finds)?;
        files_py("look", &[made, &ours])?;
        self.print(&written)?;
        let grown = self.grow(folder, seen)?;
        self.time(path, made)?;
        Ok(Done {
            real: 1,
            grafts: written.len(),
            grown,
            damages: self.notices(folder, made)?,
        })
    }

    fn check(&self) -> Result<Seen, Fault> {
        Ok(Seen {
            finds: self.finds()?,
            meanings: self.meanings()?,
        })
    }

    fn finds(&self) -> Result<Finds, Fault> {
        let List { sizes, entries } = &self.list;
        check::file(&self.bytes, *sizes, &self.trees, entries)
    }

    fn meanings(&self) -> Result<Meanings, Fault> {
        meaning::file(&self.trees, &self.list.entries)
    }

    /// A copy of the file for each node size, with our trees of that size, which ours reads too.
    fn graft_all(&self, folder: &Folder, finds: &mut Finds) -> Result<Vec<Vec<Written>>, Fault> {
        let mut all = Vec::new();
        if self.unread() {
            return Ok(all);
        }
        for node_size in graft::node_sizes(self.trees[0].header.total_records) {
            let (grafted, written) = self.graft(folder, *node_size)?;
            let trees = tree::trees(&grafted, self.list.sizes)?;
            let entries = &self.list.entries;
            finds.add(check::file(&grafted, self.list.sizes, &trees, entries)?);
            all.push(written);
        }
        Ok(all)
    }

    /// A copy of the file with our trees in nodes of this size.
    fn graft(&self, folder: &Folder, node_size: u32) -> Result<(Vec<u8>, Vec<Written>), Fault> {
        let made = graft::graft(&self.bytes, self.list.sizes, &self.trees, node_size)?;
        self.save(folder, &node_size.to_string(), &made.0)?;
        Ok(made)
    }

    /// Whether the library cannot read its own file.
    fn unread(&self) -> bool {
        self.name.ends_with("unread")
    }

    /// Has the library change files with our trees, and reads these again. Returns how many.
    fn grow(&self, folder: &Folder, seen: &mut Seen) -> Result<usize, Fault> {
        if self.unread() || self.trees[0].header.total_records > MOST_GROWN {
            return Ok(0);
        }
        let grown = folder.inner("grown")?;
        for node_size in GROWN_NODE_SIZES {
            self.graft(&grown, node_size)?;
        }
        files_py("grow", &[&grown])?;
        let block = ..self.list.sizes.block;
        for path in listed(grown.path())? {
            let changed = Real::read(&path)?;
            let stays = changed.bytes[block] == self.bytes[block];
            same("the block stays", stays, true)?;
            seen.add(changed.seen);
        }
        Ok(GROWN_NODE_SIZES.len())
    }

    fn save(&self, folder: &Folder, variant: &str, bytes: &[u8]) -> Result<(), Fault> {
        let path = folder.path().join(format!("{}.{variant}.h5", self.name));
        fs::write(&path, bytes).map_err(|e| format!("{}: {e}", path.display()))
    }

    /// A line for each tree.
    fn print(&self, written: &[Vec<Written>]) -> Result<(), Fault> {
        let sizes = self.list.sizes;
        for (i, tree) in self.trees.iter().enumerate() {
            let head = tree.header;
            let equal = match graft::equal_leaf(&self.bytes, sizes, tree)? {
                Some(true) => "equal",
                Some(false) => return Err("our leaf differs from the library's".to_string()),
                None => "",
            };
            let ours: Vec<String> = written
                .iter()
                .map(|trees| &trees[i])
                .map(|w| (w.node_size, w.tree.plan))
                .map(|(size, plan)| format!("{size}/{}/{}", plan.depth, plan.nodes))
                .collect();
            println!(
                "{:4} {:8} {:>6} {:6} {:5} {:2} {:6} {equal:5}  {}",
                head.tree_type,
                head.total_records,
                format!("{}/{}", sizes.offset, sizes.length),
                sizes.block,
                head.geometry.node_size,
                head.depth,
                tree.nodes.len(),
                ours.join(" ")
            );
        }
        Ok(())
    }

    /// A line of how long a lookup by name takes, in the file where that is timed.
    fn time(&self, path: &Path, made: &Folder) -> Result<(), Fault> {
        let Entries::Links(names) = &self.list.entries else {
            return Ok(());
        };
        if self.name != TIMED {
            return Ok(());
        }
        let by_name = self.trees.iter().find(|tree| tree.header.tree_type == 5);
        let header = &by_name.ok_or("no tree by name")?.header;
        let library = fs::read_to_string(made.path().join("library")).map_err(|e| e.to_string())?;
        let times = lexists::time(&library, path, (&self.bytes, header), names)?;
        println!(
            "a name among {}: H5Lexists {:.0} ns, hash and find {:.0} ns",
            names.len(),
            times.lexists,
            times.find
        );
        Ok(())
    }

    /// Damages what is read and what is written; each damage must be noticed. Returns how many.
    fn notices(&mut self, folder: &Folder, made: &Folder) -> Result<usize, Fault> {
        if self.unread() || !(1..=MOST_DAMAGED).contains(&self.trees[0].header.total_records) {
            return Ok(0);
        }
        let damaged = folder.inner("damaged")?;
        let mut count = 0;
        for tree in &self.trees {
            for damage in DAMAGES {
                let (sizes, size) = (self.list.sizes, DAMAGED_NODE_SIZE);
                let bytes = graft::damaged(&self.bytes, sizes, tree, damage, size)?;
                let variant = format!("{}-{damage:?}", tree.header.tree_type);
                self.save(&damaged, &variant, &bytes)?;
                count += 1;
            }
        }
        files_py("refuse", &[made, &damaged])?;
        Ok(count + self.notices_reading()?)
    }

    /// A record with another byte, whichever it is, a list with two entries exchanged, and one
    /// without its last entry.
    fn notices_reading(&mut self) -> Result<usize, Fault> {
        let mut count = 0;
        for i in 0..self.trees.len() {
            let size = self.trees[i].record_size();
            let middle = self.trees[i].rows().count() / 2 * size;
            for at in middle..middle + size {
                self.trees[i].records[at] ^= 1;
                self.noticed("a changed record is noticed")?;
                self.trees[i].records[at] ^= 1;
                count += 1;
            }
        }
        self.check()?;
        self.list.entries.exchange();
        self.noticed("an exchange in the list is noticed")?;
        self.list.entries.exchange();
        self.check()?;
        self.list.entries.shorten();
        self.noticed("a short list is noticed")?;
        Ok(count + 2)
    }

    /// By the records' bytes, and by their meaning where that is read.
    fn noticed(&self, what: &str) -> Result<(), Fault> {
        let by_both = [self.finds().is_err(), self.meanings().is_err()];
        let named = !matches!(self.list.entries, Entries::Chunks(_));
        same(what, by_both, [true, named])
    }
}
