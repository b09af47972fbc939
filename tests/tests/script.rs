//! Runs scripts on the second implementation alone: those of the paper, every
//! limit, and random ones. In each the two trees must answer alike, and every
//! refusal that a script can meet must be met.

use linduvar_tests::paper::{self, text};
use linduvar_tests::random::{seeded, Random};
use linduvar_tests::reached::Reached;
use linduvar_tests::script::{run, SCRIPT_BYTES};
use linduvar_tests::scripts::{self, LONG_KINDS};
use linduvar_tests::{laborious, samples};
use std::time::Instant;

const RANDOM_SCRIPTS: u64 = 20_000;
const LONG_SCRIPTS: u64 = 60;

fn main() {
    seeded(|seed| {
        paper::check(run);
        samples::check(run);
        laborious_scripts();
        every_limit(seed);
        random_scripts(seed);
    });
}

fn laborious_scripts() {
    for (name, script) in laborious::scripts() {
        assert!(script.len() <= SCRIPT_BYTES);
        let start = Instant::now();
        let printed = run(&script).len();
        let time = start.elapsed().as_secs_f64();
        println!("{name:36} {time:6.3} s, {printed} bytes printed");
    }
}

/// Whole lists of calls at each limit.
fn every_limit(seed: u64) {
    let mut random = Random::new(seed);
    for limit in 1..=256 {
        let printed = text(run(&scripts::at_limit(limit, &mut random)));
        assert!(printed.contains("no 15 "), "limit {limit} was not met");
    }
    println!("lists of calls at each limit: both trees alike");
}

fn random_scripts(seed: u64) {
    let mut reached = Reached::new();
    for number in 0..RANDOM_SCRIPTS {
        let mut random = Random::new(seed.wrapping_add(number));
        let (kind, script) = scripts::any(&mut random);
        reached.script(kind, &script);
    }
    for number in 0..LONG_SCRIPTS {
        let mut random = Random::new(seed.wrapping_add(number));
        let kind = LONG_KINDS[number as usize % LONG_KINDS.len()];
        reached.script(kind, &scripts::over_long(kind, &mut random));
    }
    reached.print();
    reached.require_everything();
}
