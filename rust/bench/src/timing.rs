//! The one timing helper: contenders in interleaved rounds, told by medians in a markdown table.
//! Time is the thread's processor time, so that other work on the machine counts for little.

use std::hint::black_box;
use std::time::Duration;

use crate::memory::{taken, Taken};

const LEAST_ROUND: Duration = Duration::from_millis(4);
const MOST_ROUNDS: u128 = 31;
const LEAST_ROUNDS: u128 = 5;
/// Rounds end after this long, if there were enough of them.
const BUDGET: Duration = Duration::from_secs(3);

/// A contender that is held beside the first one in the stack it takes, too.
pub const PART: &str = "the part";

extern "C" {
    fn bench_c_nanoseconds() -> u64;
}

fn processor_time() -> Duration {
    // SAFETY: the function takes nothing and only asks the system.
    let run = unsafe { bench_c_nanoseconds() };
    assert!(run > 0, "the system tells a thread's time");
    Duration::from_nanos(run)
}

/// One that is timed: it makes a given number of calls.
pub struct Contender<'a> {
    name: &'static str,
    calls: Box<dyn FnMut(u64) + 'a>,
    /// Nanoseconds a call, for each round.
    rounds: Vec<f64>,
}

impl<'a> Contender<'a> {
    pub fn new<T>(name: &'static str, mut call: impl FnMut() -> T + 'a) -> Contender<'a> {
        let calls = Box::new(move |repeats| {
            for _ in 0..repeats {
                black_box(call());
            }
        });
        Contender {
            name,
            calls,
            rounds: Vec::new(),
        }
    }

    fn round(&mut self, repeats: u64) -> Duration {
        let begin = processor_time();
        (self.calls)(repeats);
        processor_time() - begin
    }

    /// The calls that make a round long enough, and its time; by the way it warms up.
    fn enough(&mut self) -> (u64, Duration) {
        let mut repeats = 1;
        loop {
            let taken = self.round(repeats);
            if taken >= LEAST_ROUND {
                return (repeats, taken);
            }
            repeats *= 2;
        }
    }

    /// The median nanoseconds a call.
    fn nanoseconds(&self) -> f64 {
        median(self.rounds.clone())
    }

    /// How many times the other's time this one takes: the median over the rounds.
    fn over(&self, other: &Contender) -> f64 {
        let pairs = self.rounds.iter().zip(&other.rounds);
        median(pairs.map(|(own, theirs)| own / theirs).collect())
    }

    /// What one call takes.
    fn taken(&mut self) -> Taken {
        taken(&mut || (self.calls)(1))
    }
}

/// Times all contenders, one round of each in turn.
fn time(contenders: &mut [Contender]) {
    let enough: Vec<(u64, Duration)> = contenders.iter_mut().map(Contender::enough).collect();
    let turn: Duration = enough.iter().map(|(_, taken)| taken).sum();
    let rounds = BUDGET.as_nanos() / turn.as_nanos();
    for _ in 0..rounds.clamp(LEAST_ROUNDS, MOST_ROUNDS) {
        for (contender, &(repeats, _)) in contenders.iter_mut().zip(&enough) {
            let taken = contender.round(repeats).as_nanos() as f64;
            contender.rounds.push(taken / repeats as f64);
        }
    }
}

fn median(mut numbers: Vec<f64>) -> f64 {
    numbers.sort_by(f64::total_cmp);
    numbers[numbers.len() / 2]
}

/// A part of the benchmark's print: a heading, then a table with a row for each input.
pub struct Section<'a> {
    inputs: &'a [&'a str],
    headed: bool,
}

impl<'a> Section<'a> {
    pub fn new(title: &str, inputs: &'a [&'a str]) -> Section<'a> {
        println!("\n### {title}\n");
        Section {
            inputs,
            headed: false,
        }
    }

    /// Times contenders on one input and prints their nanoseconds for each of `units` in a call,
    /// the first one's time over each of the others', and what a call of the first one takes; of
    /// the Rust, its heap.
    pub fn row(&mut self, input: &[String], units: u64, mut contenders: Vec<Contender>) {
        time(&mut contenders);
        let all: Vec<Taken> = contenders.iter_mut().map(Contender::taken).collect();
        let (first, others) = contenders.split_first().expect("someone is timed");
        let mut columns: Vec<(String, String)> = Vec::new();
        for one in &contenders {
            let each = one.nanoseconds() / units as f64;
            columns.push((one.name.to_string(), shown(each)));
        }
        for one in others {
            let name = format!("{}/{}", first.name, one.name);
            columns.push((name, shown(first.over(one))));
        }
        columns.push(("stack".to_string(), grouped(all[0].stack as f64)));
        for (one, taken) in contenders.iter().zip(&all) {
            if one.name == PART {
                let name = format!("stack of {PART}");
                columns.push((name, grouped(taken.stack as f64)));
            }
        }
        columns.push(("new pages".to_string(), all[0].pages.to_string()));
        for (one, taken) in contenders.iter().zip(&all) {
            if ["Rattle", "Rust"].contains(&one.name) {
                let name = format!("heap of {}", one.name);
                columns.push((name, grouped(taken.heap as f64)));
            }
        }
        self.print(input, &columns);
    }

    fn print(&mut self, input: &[String], columns: &[(String, String)]) {
        if !self.headed {
            self.headed = true;
            let names = columns.iter().map(|(name, _)| name.as_str());
            let names: Vec<&str> = self.inputs.iter().copied().chain(names).collect();
            println!("| {} |", names.join(" | "));
            println!("|{}", "---:|".repeat(names.len()));
        }
        let cells = columns.iter().map(|(_, cell)| cell.as_str());
        let cells: Vec<&str> = input.iter().map(String::as_str).chain(cells).collect();
        println!("| {} |", cells.join(" | "));
    }
}

/// Small numbers with more places than large ones.
fn shown(number: f64) -> String {
    match number {
        100.0.. => grouped(number),
        0.1.. => format!("{number:.2}"),
        _ => format!("{number:.6}"),
    }
}

/// A whole number, with a comma before each three digits.
pub fn grouped(number: f64) -> String {
    let digits = format!("{number:.0}");
    let mut text = String::new();
    for (i, digit) in digits.chars().enumerate() {
        if i > 0 && (digits.len() - i) % 3 == 0 {
            text.push(',');
        }
        text.push(digit);
    }
    text
}
