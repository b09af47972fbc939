//! Links the archives of the benchmark's rounds, which `rt lib` makes in the
//! folders of `exports_bench_*`. All other calls come with the crate linduvar.

use std::{env, fs};

const CRATES: &str = "../crates.txt";

fn main() {
    println!("cargo:rerun-if-changed={CRATES}");
    let here = env::var("CARGO_MANIFEST_DIR").expect("cargo names the folder");

    let crates = fs::read_to_string(CRATES).unwrap_or_else(|error| panic!("{CRATES}: {error}"));
    let names = crates
        .lines()
        .filter_map(|line| line.split([' ', ':']).next())
        .filter(|name| name.starts_with("exports_bench_"));
    for name in names {
        let folder = format!("{here}/../crates/{name}/out");
        let archive = format!("{folder}/lib{name}.a");
        println!("cargo:rerun-if-changed={archive}");
        if let Err(error) = fs::metadata(&archive) {
            panic!("{archive}: {error}; run `rt lib` in crates/{name} first");
        }
        println!("cargo:rustc-link-search=native={folder}");
        println!("cargo:rustc-link-lib=static={name}");
    }
}
