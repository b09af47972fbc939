//! Times the Rattle library beside Rust, and counts its copies and its stack.

mod calls;
mod copies;
mod diagnosis;
mod embedding;
mod queue_tree;
mod regular;
mod scheduler;
mod stack;
mod topology;
mod translator;
mod whole_scripts;

use linduvar_tests::random::{self, Random};
use std::env;
use std::time::Instant;

fn main() {
    let arguments: Vec<String> = env::args().skip(1).collect();
    if !arguments.is_empty() {
        return copies::run_rounds(&arguments);
    }
    let seed = random::seed();
    let mut random = Random::new(seed);
    println!("seed {seed}; ns per call");
    println!("and in brackets the time of Rattle over that of Rust");
    topology::run(&mut random);
    embedding::run(&mut random);
    diagnosis::run(&mut random);
    regular::run(&mut random);
    queue_tree::run(&mut random);
    scheduler::run();
    translator::run(&mut random);
    calls::run(&mut random);
    copies::run();
    whole_scripts::run();
}

/// Nanoseconds that the fastest of some rounds took.
fn best_of(rounds: usize, mut round: impl FnMut()) -> f64 {
    let mut best = f64::INFINITY;
    for _ in 0..rounds {
        let start = Instant::now();
        round();
        best = best.min(start.elapsed().as_nanos() as f64);
    }
    best
}
