//! Links the functions for a host, built beforehand by `bench/archives` from the
//! crates `host_c`, `lists_c` and `fitting_c`.

use std::path::Path;
use std::process::exit;

const LIBRARIES: [&str; 3] = ["host", "lists", "fitting"];

fn main() {
    let folder = Path::new(env!("CARGO_MANIFEST_DIR")).join("../target/staticlib");
    println!("cargo:rustc-link-search=native={}", folder.display());
    println!("cargo:rerun-if-changed=build.rs");
    let mut missing = Vec::new();
    for library in LIBRARIES {
        let file = folder.join(format!("lib{library}.a"));
        println!("cargo:rustc-link-lib=static={library}");
        println!("cargo:rerun-if-changed={}", file.display());
        if !file.is_file() {
            missing.push(library);
        }
    }
    if !missing.is_empty() {
        eprintln!(
            "the archives of {} are not in target/staticlib; make them first, in the repository's folder: bench/archives {}",
            missing.join(" and "),
            missing.join(" ")
        );
        exit(1);
    }
}
