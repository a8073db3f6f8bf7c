//! Links with the planner's static archive, which tools/library makes.

use std::path::PathBuf;
use std::{env, process};

fn main() {
    let archive = folder().join("libfitplan.a");
    println!("cargo:rerun-if-env-changed=FITPLAN_LIBRARY");
    println!("cargo:rerun-if-changed={}", archive.display());
    if !archive.is_file() {
        eprintln!("the planner's archive {} is not there: run tools/library first", archive.display());
        process::exit(1);
    }
    println!("cargo:rustc-link-search=native={}", folder().display());
    println!("cargo:rustc-link-lib=static=fitplan");
}

/// The one that FITPLAN_LIBRARY names, else target/library of the repository.
fn folder() -> PathBuf {
    let named = |name| env::var_os(name).map(PathBuf::from);
    named("FITPLAN_LIBRARY").unwrap_or_else(|| {
        let package = named("CARGO_MANIFEST_DIR").expect("cargo names the package's folder");
        package.parent().expect("the repository").join("target/library")
    })
}
