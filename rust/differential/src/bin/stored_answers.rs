//! Prints one of the stored lists of answers: `stored_answers NAME > differential/stored/NAME.txt`.

use std::env;
use std::process::ExitCode;

use differential::calls::By;
use differential::stored::{self, LISTS};

fn main() -> ExitCode {
    if !oracle::AVAILABLE {
        eprintln!("{}", oracle::NOT_RUN);
        return ExitCode::FAILURE;
    }
    let name = env::args().nth(1).unwrap_or_default();
    if name == "checksum" {
        print!("{}", stored::checksum::list(oracle::jenkins_lookup3));
        return ExitCode::SUCCESS;
    }
    let Some(list) = LISTS.iter().find(|list| list.name == name) else {
        let names: Vec<&str> = LISTS.iter().map(|list| list.name).collect();
        eprintln!("name a list: checksum, {}", names.join(", "));
        return ExitCode::FAILURE;
    };
    // The model gives the list, and the Rust what it has of it.
    if let Err(difference) = list.agrees() {
        eprintln!("{difference}");
        return ExitCode::FAILURE;
    }
    print!("{}", (list.text)(By::Model));
    ExitCode::SUCCESS
}
