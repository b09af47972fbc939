//! Whole scripts: the program gatewalk from its start to its end, beside the
//! second implementation's function.

use linduvar_tests::gatewalk;
use linduvar_tests::{laborious, paper, script};
use std::hint::black_box;

const ROUNDS: usize = 3;
const NS_PER_MS: f64 = 1e6;

pub fn run() {
    if !gatewalk::program().is_file() {
        println!("whole scripts: the program gatewalk is not there");
        return;
    }
    println!("whole scripts, milliseconds, the best of {ROUNDS} rounds:");
    let small = [
        ("nothing but a start", Vec::new()),
        ("the paper's example", paper::EXAMPLE.to_vec()),
    ];
    for (name, script) in small.into_iter().chain(laborious::scripts()) {
        assert_eq!(gatewalk::walk(&script), script::run(&script));
        let time = |run: fn(&[u8]) -> Vec<u8>| {
            crate::best_of(ROUNDS, || _ = black_box(run(black_box(&script)))) / NS_PER_MS
        };
        let (rattle, rust) = (time(gatewalk::walk), time(script::run));
        println!(
            "{name:36} Rattle {rattle:9.2}   Rust {rust:9.2} ({:.2})",
            rattle / rust
        );
    }
}
