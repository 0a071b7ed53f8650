//! Times the Rattle libraries against the Rust and plain C, in one run on the same inputs, and tells
//! what each call takes beside the buffers that it is lent. `bench NAME` runs one part alone.

mod base;
mod cases;
mod checksum;
mod collect;
mod find;
mod header;
mod machine;
mod memory;
mod plain;
mod plain_record;
mod plan;
mod records;
mod timing;
mod typed;
mod write;

#[global_allocator]
static HEAP: memory::Counted = memory::Counted;

/// The parts; the header reader's takes its headers from the collector's files.
const PARTS: [(&str, fn()); 8] = [
    ("checksum", checksum::run),
    ("plan", plan::run),
    ("write", write::run),
    ("read", || header::run(&collect::run())),
    ("find", find::run),
    ("base", base::run),
    ("records", records::run),
    ("types", typed::run),
];

fn main() {
    machine::say();
    if !oracle::AVAILABLE {
        println!("- {}", oracle::NOT_RUN);
    }
    let named = std::env::args().nth(1);
    for (name, run) in PARTS {
        if named.as_deref().is_none_or(|one| one == name) {
            run();
        }
    }
}
