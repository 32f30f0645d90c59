//! Hands the compiler's version to the benchmark, which names it in its table.

use std::env;
use std::process::Command;

fn main() {
    println!("cargo:rerun-if-changed=build.rs");
    println!("cargo:rustc-env=BENCH_RUSTC={}", version());
}

fn version() -> String {
    let rustc = env::var_os("RUSTC").unwrap_or_else(|| "rustc".into());
    let told = Command::new(rustc).arg("--version").output();
    let line = told.map(|told| String::from_utf8_lossy(&told.stdout).trim().to_string());
    line.unwrap_or_else(|_| "rustc, version unknown".to_string())
}
