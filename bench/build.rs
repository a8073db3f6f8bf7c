//! Links with the planner's static archive, which tools/library makes, and hands on how the program is built.

use std::path::PathBuf;
use std::process::{self, Command};
use std::{env, fs};

fn main() {
    let archive = folder().join("libfitplan.a");
    println!("cargo:rerun-if-env-changed=FITPLAN_LIBRARY");
    println!("cargo:rerun-if-changed={}", archive.display());
    println!("cargo:rerun-if-changed=build.rs");
    let Ok(bytes) = fs::read(&archive) else {
        eprintln!("the planner's archive {} is not there: run tools/library first", archive.display());
        process::exit(1);
    };
    println!("cargo:rustc-link-search=native={}", folder().display());
    println!("cargo:rustc-link-lib=static=fitplan");
    println!("cargo:rustc-env=BENCH_ARCHIVE={} bytes, sum {:08x}", bytes.len(), sum(&bytes));
    println!("cargo:rustc-env=BENCH_COMPILER={}", compiler());
    for (name, from) in [("BENCH_PROFILE", "PROFILE"), ("BENCH_LEVEL", "OPT_LEVEL")] {
        println!("cargo:rustc-env={name}={}", env::var(from).unwrap_or_default());
    }
}

/// The one that FITPLAN_LIBRARY names, else target/library of the repository.
fn folder() -> PathBuf {
    let named = |name| env::var_os(name).map(PathBuf::from);
    named("FITPLAN_LIBRARY").unwrap_or_else(|| {
        let package = named("CARGO_MANIFEST_DIR").expect("cargo names the package's folder");
        package.parent().expect("the repository").join("target/library")
    })
}

fn compiler() -> String {
    let rustc = env::var_os("RUSTC").expect("cargo names the compiler");
    let version = Command::new(rustc).arg("--version").output().ok();
    version.and_then(|output| String::from_utf8(output.stdout).ok()).unwrap_or_default().trim().to_string()
}

/// FNV-1a in 32 bits: tells one archive from another in a printed table.
fn sum(bytes: &[u8]) -> u32 {
    bytes.iter().fold(0x811C_9DC5, |sum, &byte| (sum ^ u32::from(byte)).wrapping_mul(0x0100_0193))
}
