//! Compiles the C files of the benchmark and links them, and hands on the compilers' versions.

use std::env;
use std::path::Path;
use std::process::Command;

const FLAGS: [&str; 4] = ["-O3", "-Wall", "-Wextra", "-Werror"];

fn main() {
    println!("cargo::rerun-if-changed=build.rs");
    let out = env::var_os("OUT_DIR").expect("cargo sets it");
    let out = Path::new(&out);
    let archive = out.join("libbench_c.a");
    let mut join = Command::new("ar");
    join.arg("rcs").arg(&archive);
    for name in ["lookup3", "measure"] {
        let source = format!("{name}.c");
        let object = out.join(format!("{name}.o"));
        println!("cargo::rerun-if-changed={source}");
        let mut compile = Command::new("gcc");
        run(compile.args(FLAGS).args(["-c", &source, "-o"]).arg(&object));
        join.arg(object);
    }
    run(&mut join);
    println!("cargo::rustc-link-search=native={}", out.display());
    println!("cargo::rustc-link-lib=static=bench_c");
    let rustc = env::var("RUSTC").expect("cargo sets it");
    println!("cargo::rustc-env=BENCH_RUSTC={}", version(&rustc));
    println!("cargo::rustc-env=BENCH_GCC={}", version("gcc"));
}

fn run(command: &mut Command) {
    let status = command
        .status()
        .unwrap_or_else(|e| panic!("cannot run {command:?}: {e}"));
    assert!(status.success(), "{command:?}: {status}");
}

/// The first line that a compiler says of its version.
fn version(compiler: &str) -> String {
    let said = Command::new(compiler).arg("--version").output();
    let said = said.unwrap_or_else(|e| panic!("cannot run {compiler}: {e}"));
    let said = String::from_utf8_lossy(&said.stdout);
    said.lines().next().unwrap_or_default().to_string()
}
