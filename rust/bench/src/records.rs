//! Records by their meaning, one call for each: Rattle, a plain loop over the table of fields, and
//! that loop for each type.

use std::cell::RefCell;
use std::hint::black_box;
use std::slice::from_ref;

use differential::random::Random;
use nuldrafon::raw;

use crate::plain_record::{self as plain, Values};
use crate::timing::{Contender, Section};

/// The records of each type.
const RECORDS: usize = 1_000_000;

const TYPES: [u8; 4] = [5, 6, 8, 9];

pub fn run() {
    let title = "Records by their meaning, nanoseconds a record";
    let mut section = Section::new(title, &["call", "type"]);
    let lists = TYPES.map(List::new);
    for list in &lists {
        read(&mut section, from_ref(list));
    }
    read(&mut section, &lists);
    for list in &lists {
        write(&mut section, from_ref(list));
    }
    write(&mut section, &lists);
}

/// Records of one type end to end, and their values.
struct List {
    tree_type: u8,
    size: usize,
    records: Vec<u8>,
    values: Vec<Values>,
}

impl List {
    /// Any bytes are values of the fields.
    fn new(tree_type: u8) -> List {
        let size = plain::length(tree_type).expect("the type has fields");
        let records = Random::new(tree_type.into()).bytes(RECORDS * size);
        let values = records.chunks_exact(size).map(|record| {
            let answer = plain::read(tree_type, record);
            assert_eq!(answer, plain::read_by_type(tree_type, record));
            assert_eq!(answer, raw::record_read(tree_type, record));
            let [0, values @ ..] = answer else {
                panic!("the record has the type's length: {answer:?}");
            };
            values
        });
        List {
            tree_type,
            size,
            values: values.collect(),
            records,
        }
    }
}

/// Reads the records of all lists.
fn read(section: &mut Section, lists: &[List]) {
    let contenders = vec![
        reader("Rattle", lists, raw::record_read),
        reader("plain", lists, plain::read),
        reader("plain by type", lists, plain::read_by_type),
    ];
    row(section, "read", lists, contenders);
}

/// The answers are lent to the black box: moving them there would take a part of the time.
fn reader<'a>(
    name: &'static str,
    lists: &'a [List],
    read: impl Fn(u8, &[u8]) -> [u64; 5] + 'a,
) -> Contender<'a> {
    Contender::new(name, move || {
        for list in lists {
            for record in list.records.chunks_exact(list.size) {
                black_box(&read(black_box(list.tree_type), record));
            }
        }
    })
}

/// Writes the records of all lists, each list to the front of one output for all contenders, so that
/// none has the better place in memory.
fn write(section: &mut Section, lists: &[List]) {
    let longest = lists.iter().map(|list| list.records.len()).max();
    let output = RefCell::new(vec![0; longest.unwrap_or(0)]);
    let rattle = |tree_type, &[hash, id, flags, order]: &Values, output: &mut [u8]| {
        raw::record_write(tree_type, hash, id, flags, order, output)
    };
    let contenders = vec![
        writer("Rattle", lists, &output, rattle),
        writer("plain", lists, &output, plain::write),
        writer("plain by type", lists, &output, plain::write_by_type),
    ];
    row(section, "write", lists, contenders);
}

fn writer<'a>(
    name: &'static str,
    lists: &'a [List],
    output: &'a RefCell<Vec<u8>>,
    write: impl Fn(u8, &Values, &mut [u8]) -> [u64; 3] + 'a,
) -> Contender<'a> {
    let write_list = move |list: &List| {
        let mut output = output.borrow_mut();
        let records = output.chunks_exact_mut(list.size);
        for (values, record) in list.values.iter().zip(records) {
            black_box(&write(black_box(list.tree_type), values, record));
        }
    };
    for list in lists {
        output.borrow_mut().fill(0);
        write_list(list);
        assert!(output.borrow().starts_with(&list.records));
    }
    Contender::new(name, move || lists.iter().for_each(&write_list))
}

fn row(section: &mut Section, call: &str, lists: &[List], contenders: Vec<Contender>) {
    let types: Vec<String> = lists
        .iter()
        .map(|list| list.tree_type.to_string())
        .collect();
    let input = [call.to_string(), types.join(", ")];
    section.row(&input, (lists.len() * RECORDS) as u64, contenders);
}
