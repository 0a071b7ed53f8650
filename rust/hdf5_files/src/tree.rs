//! A tree in a file: found by its header, collected, and held node by node to the format.

use nuldrafon::{Field, Header, LeafView, NodeInfo, Refusal};

use crate::bytes::{number, part, same, Fault};
use crate::superblock::Sizes;

/// A tree with the place of its header, its records end to end, and the places of its nodes and of
/// its records, all places counted from the base.
pub struct Tree {
    pub at: usize,
    pub header: Header,
    pub records: Vec<u8>,
    pub nodes: Vec<usize>,
    pub places: Vec<u64>,
}

impl Tree {
    pub fn record_size(&self) -> usize {
        self.header.geometry.record_size.into()
    }

    pub fn rows(&self) -> impl DoubleEndedIterator<Item = &[u8]> {
        self.records.chunks_exact(self.record_size())
    }

    /// With base 0 a tree behind a block does not come out: neither its header nor its records.
    fn only_with_its_base(&self, file: &[u8], sizes: Sizes) -> Result<(), Fault> {
        let header = Header::parse(file, self.at as u64, sizes.offset, sizes.length);
        same("a header with base 0", header.is_err(), true)?;
        let mut header = self.header;
        header.base = 0;
        let collected = header.collect_to_vec(file);
        let came = collected.is_ok_and(|collected| collected.records == self.records);
        // A tree without records is accepted unread.
        same("records with base 0", came, self.records.is_empty())
    }

    /// Nor does it of a copy that ends with its block, or within it, even without records.
    fn not_of_its_block(&self, file: &[u8], sizes: Sizes) -> Result<(), Fault> {
        let Sizes { offset, length, .. } = sizes;
        let (whole, cut) = (&file[..sizes.block], &file[..sizes.block - 1]);
        let read = |file| Header::parse_at(file, sizes.base(), self.at as u64, offset, length);
        let nothing_behind = Refusal::UnexpectedEof {
            expected: self.at as u64 + 4,
            available: 0,
        };
        same(
            "a header of the block alone",
            read(whole),
            Err(nothing_behind),
        )?;
        let due = Refusal::BaseBeyondFile;
        same("a header of a cut block", read(cut), Err(due))?;
        let collected = self.header.collect_to_vec(cut).map_err(Refusal::from);
        same("records of a cut block", collected, Err(due))?;
        let found = self.header.find(cut, Field::new(0, 1), 0);
        same(
            "a find in a cut block",
            found.map_err(Refusal::from),
            Err(due),
        )
    }
}

/// Every tree of the file: one wherever the header reader accepts.
pub fn trees(file: &[u8], sizes: Sizes) -> Result<Vec<Tree>, Fault> {
    let hdf5 = file[sizes.block..].windows(4).enumerate();
    let places = hdf5.filter(|(_, w)| *w == b"BTHD");
    places
        .filter_map(|(at, _)| {
            let Sizes { offset, length, .. } = sizes;
            let header = Header::parse_at(file, sizes.base(), at as u64, offset, length);
            Some((at, header.ok()?))
        })
        .map(|(at, header)| {
            let tree = tree(file, at, header)?;
            if sizes.block > 0 {
                tree.only_with_its_base(file, sizes)?;
                tree.not_of_its_block(file, sizes)?;
            }
            Ok(tree)
        })
        .collect()
}

/// Collects a tree, and walks its nodes beside that.
fn tree(file: &[u8], at: usize, header: Header) -> Result<Tree, Fault> {
    let record_size = usize::from(header.geometry.record_size);
    let mut records = vec![0; header.total_records as usize * record_size];
    let counts = header.collect(file, &mut records);
    let counts = counts.map_err(|error| format!("collecting, {error}"))?;
    same("records put out", counts.records, header.total_records)?;
    let mut walk = Walk::new(file, header)?;
    // The library's tree without records has no node.
    if header.total_records > 0 {
        same("leaves", counts.leaves, counts.internal_records + 1)?;
        walk.run()?;
    }
    let read = counts.leaves + counts.internal_nodes;
    same("nodes read", read, walk.nodes.len() as u64)?;
    Ok(Tree {
        at,
        header,
        records,
        nodes: walk.nodes,
        places: walk.places,
    })
}

/// A walk that compares what the collector does not: checksums and totals of internal nodes, the
/// versions and types of nodes, and the zeros behind them; and what a look at each leaf shows.
struct Walk<'a> {
    file: &'a [u8],
    /// The part from the base on.
    hdf5: &'a [u8],
    header: Header,
    info: NodeInfo,
    nodes: Vec<usize>,
    places: Vec<u64>,
}

impl<'a> Walk<'a> {
    fn new(file: &'a [u8], header: Header) -> Result<Self, Fault> {
        let info = header.geometry.node_info(header.depth);
        Ok(Self {
            file,
            hdf5: &file[header.base as usize..],
            header,
            info: info.map_err(|refusal| refusal.to_string())?,
            nodes: Vec::new(),
            places: Vec::new(),
        })
    }

    /// Goes over the tree, for the places of all nodes, children first, and of all records in order.
    fn run(&mut self) -> Result<(), Fault> {
        let Header {
            root_address,
            depth,
            root_records,
            ..
        } = self.header;
        let total = self.node(root_address, depth.into(), root_records.into())?;
        same("records in all", total, self.header.total_records)
    }

    /// Walks a subtree, and returns how many records are in it.
    fn node(&mut self, at: u64, level: usize, count: u64) -> Result<u64, Fault> {
        let geometry = self.header.geometry;
        let bytes = part(self.hdf5, at, geometry.node_size as usize)?;
        if count > self.info.max_nrec[level] {
            return Err(format!("{count} records in a node of level {level}"));
        }
        let record_size = u64::from(geometry.record_size);
        let pointers = 6 + (count * record_size) as usize;
        let offset_size = usize::from(geometry.offset_size);
        let counts = usize::from(self.info.max_nrec_size);
        let totals = self.total_width(level);
        let width = offset_size + counts + totals;
        let children = if level == 0 { 0 } else { count as usize + 1 };
        self.framed(bytes, level, pointers + children * width)?;
        let mut total = count;
        let mut records = (0..count).map(|i| at + 6 + i * record_size);
        if level == 0 {
            self.look(at, count as u16, &bytes[6..pointers])?;
            self.places.extend(records.by_ref());
        }
        for pointer in bytes[pointers..].chunks_exact(width).take(children) {
            let (address, numbers) = pointer.split_at(offset_size);
            let (in_node, in_all) = numbers.split_at(counts);
            let below = self.node(number(address), level - 1, number(in_node))?;
            let due = if totals == 0 { in_node } else { in_all };
            same("records of a subtree", below, number(due))?;
            total += below;
            self.places.extend(records.next());
        }
        self.nodes.push(at as usize);
        Ok(total)
    }

    /// Looks at a leaf, which must show these records.
    fn look(&self, at: u64, count: u16, records: &[u8]) -> Result<(), Fault> {
        let record_size = self.header.geometry.record_size;
        let leaf = LeafView::new_at(self.file, self.header.base, at, count, record_size);
        let leaf = leaf.map_err(|refusal| format!("looking at a leaf: {refusal}"))?;
        same("records of a leaf", leaf.as_bytes(), records)
    }

    /// The width of the totals in the pointers of a node.
    fn total_width(&self, level: usize) -> usize {
        match level {
            0 => 0,
            _ => self.info.cum_max_nrec_size[level - 1].into(),
        }
    }

    /// What stands before and behind the records and pointers of a node.
    fn framed(&self, bytes: &[u8], level: usize, end: usize) -> Result<(), Fault> {
        let signature = if level == 0 { b"BTLF" } else { b"BTIN" };
        same("signature of a node", &bytes[..4], &signature[..])?;
        same(
            "version and type",
            &bytes[4..6],
            &[0, self.header.tree_type],
        )?;
        let sum = nuldrafon::jenkins_lookup3(&bytes[..end]);
        same("checksum", sum.into(), number(&bytes[end..end + 4]))?;
        same("zeros", bytes[end + 4..].iter().all(|b| *b == 0), true)
    }
}
