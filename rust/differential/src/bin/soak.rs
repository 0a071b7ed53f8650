//! Runs the comparisons from random seeds for some time, and stops at the first difference:
//! `soak SECONDS THREADS`. A part from one seed again: `soak repeat NAME SEED`.

use std::panic::{catch_unwind, AssertUnwindSafe};
use std::process::exit;
use std::sync::atomic::{AtomicUsize, Ordering::Relaxed};
use std::sync::Mutex;
use std::time::{Duration, Instant, SystemTime, UNIX_EPOCH};
use std::{env, thread};

use differential::calls::{self, Part};
use differential::checksum::random_lengths;
use differential::compare::{Comparison, Family};
use differential::model::lookup3;
use differential::random::Random;
use differential::report::{rust_is_there, say};

/// What a part is made of: cases of a call, or inputs of the checksum.
#[derive(Clone, Copy)]
enum Kind {
    Cases(&'static str, Family),
    Sums,
}
use Kind::{Cases, Sums};

/// The checksum's part and those parts of the calls that are asked for, by name.
fn parts(asked_for: impl Fn(&Part) -> bool) -> Vec<(&'static str, Kind)> {
    let of_calls = calls::parts().filter(|(_, part)| asked_for(part));
    let of_calls = of_calls.map(|(call, part)| (part.name, Cases(call.name, part.family)));
    [("sums", Sums)].into_iter().chain(of_calls).collect()
}

/// The inputs of the checksum from one seed.
const SUM_INPUTS: usize = 500;

/// Runs of a part, its cases, and those of them that were held to the Rust too.
type Counts = [u64; 3];

/// Runs a part from a seed; a panic counts as a difference.
fn run(kind: Kind, seed: u64) -> Result<Counts, String> {
    let held = || match kind {
        Sums => sums(seed),
        Cases(call, family) => {
            let mut comparison = Comparison::new(call);
            comparison.run([family], seed)?;
            let tally = comparison.tally;
            Ok([1, tally.cases(), tally.with_rust()])
        }
    };
    catch_unwind(AssertUnwindSafe(held)).unwrap_or_else(|_| Err("a panic".to_string()))
}

/// The checksum held to the model's and to the Rust's.
fn sums(seed: u64) -> Result<Counts, String> {
    let ours = nuldrafon::jenkins_lookup3;
    let cases = random_lengths(ours, lookup3, seed, SUM_INPUTS)?;
    let with_rust = match oracle::AVAILABLE {
        true => random_lengths(ours, oracle::jenkins_lookup3, seed, SUM_INPUTS)?,
        false => 0,
    };
    Ok([1, cases as u64, with_rust as u64])
}

/// Says each seed before it is used, so that it is known even where the process ends.
fn run_aloud((name, kind): (&str, Kind), seed: u64) -> Counts {
    say(&format!("{name} from seed {seed:#018x}"));
    run(kind, seed).unwrap_or_else(|difference| {
        say(&format!("{name} from seed {seed:#018x}: {difference}"));
        say(&format!(
            "to repeat it, in rust/: cargo run --release --bin soak repeat {name} {seed:#018x}"
        ));
        exit(1);
    })
}

/// Parts by turns on some threads, until the time is over.
fn soak(time: Duration, threads: usize) {
    let begin = Instant::now();
    let clock = SystemTime::now().duration_since(UNIX_EPOCH);
    let seeds = Mutex::new(Random::new(clock.map_or(0, |past| past.as_nanos() as u64)));
    let next = AtomicUsize::new(0);
    let parts = parts(|part| part.soaks);
    let all = Mutex::new(vec![[0; 3]; parts.len()]);
    thread::scope(|scope| {
        for _ in 0..threads {
            scope.spawn(|| {
                while begin.elapsed() < time {
                    let turn = next.fetch_add(1, Relaxed) % parts.len();
                    let seed = seeds.lock().expect("no panic").number();
                    let counts = run_aloud(parts[turn], seed);
                    let sums = &mut all.lock().expect("no panic")[turn];
                    sums.iter_mut()
                        .zip(counts)
                        .for_each(|(sum, more)| *sum += more);
                }
            });
        }
    });
    let all = all.into_inner().expect("no panic");
    tell(&parts, &all, begin.elapsed());
}

fn tell(parts: &[(&str, Kind)], all: &[Counts], taken: Duration) {
    for ((name, _), [runs, cases, with_rust]) in parts.iter().zip(all) {
        say(&format!(
            "{name}: {cases} cases from {runs} seeds, {with_rust} also held to the Rust"
        ));
    }
    let [seeds, cases, with_rust] = [0, 1, 2].map(|i| all.iter().map(|part| part[i]).sum::<u64>());
    say(&format!(
        "no difference in {} seconds: {cases} cases from {seeds} seeds, {with_rust} also held to \
         the Rust",
        taken.as_secs()
    ));
}

/// A number as the print has it, or a decimal one.
fn number(word: &str) -> Option<u64> {
    match word.strip_prefix("0x") {
        Some(digits) => u64::from_str_radix(digits, 16).ok(),
        None => word.parse().ok(),
    }
}

fn main() {
    let words: Vec<String> = env::args().skip(1).collect();
    let words: Vec<&str> = words.iter().map(String::as_str).collect();
    rust_is_there();
    match words[..] {
        ["repeat", name, seed] => {
            let part = parts(|part| part.name == name)
                .into_iter()
                .find(|part| part.0 == name);
            let (part, seed) = (part.expect("a part's name"), number(seed).expect("a seed"));
            let [_, cases, _] = run_aloud(part, seed);
            say(&format!("no difference in {cases} cases"));
        }
        [seconds, threads] => {
            let seconds = number(seconds).expect("a number of seconds");
            let threads = number(threads).expect("a number of threads");
            soak(Duration::from_secs(seconds), threads as usize);
        }
        _ => {
            eprintln!("soak SECONDS THREADS, or soak repeat NAME SEED");
            exit(2);
        }
    }
}
