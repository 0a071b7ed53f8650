//! The machine and the compilers, as lines of the print.

use std::fs;
use std::process::Command;

pub fn say() {
    let cpu = field("/proc/cpuinfo", "model name").unwrap_or_default();
    let cores = std::thread::available_parallelism().map_or(1, usize::from);
    let kernel = fs::read_to_string("/proc/sys/kernel/osrelease").unwrap_or_default();
    println!("- Machine: {cpu}, {cores} cores, Linux {}", kernel.trim());
    println!("- Rattle: {}", rattle().unwrap_or_default());
    println!("- Rust: {}", env!("BENCH_RUSTC"));
    println!("- C: {}", env!("BENCH_GCC"));
}

/// What a file says of a name, as in `name : value`.
fn field(file: &str, name: &str) -> Option<String> {
    let text = fs::read_to_string(file).ok()?;
    let line = text.lines().find(|line| line.starts_with(name))?;
    Some(line.split_once(':')?.1.trim().to_string())
}

/// The toolchain on the PATH.
fn rattle() -> Option<String> {
    let said = Command::new("rt").arg("version").output().ok()?;
    Some(String::from_utf8_lossy(&said.stdout).trim().to_string())
}
