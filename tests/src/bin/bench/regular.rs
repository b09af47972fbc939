//! The least depth, on drawings of 32 nodes.

use linduvar::maps;
use linduvar_tests::generate::{self, Shape};
use linduvar_tests::random::Random;
use linduvar_tests::regular;
use linduvar_tests::regular::CHILDREN;
use linduvar_tests::topology::{MOST_CHILDREN, MOST_STEPS_DOWN, SOURCE_NODES};
use std::hint::black_box;

const DRAWINGS: usize = 200;
const ROUNDS: usize = 10;

pub fn run(random: &mut Random) {
    println!("the least depth, the best of {ROUNDS} rounds over {DRAWINGS} drawings of 32 nodes and each d:");
    for (name, shape) in [
        ("deep", Shape::Deep),
        ("wide", Shape::Wide),
        ("mixed", Shape::Mixed),
    ] {
        let drawings: Vec<Vec<u8>> = (0..DRAWINGS)
            .map(|_| generate::tree(random, shape, SOURCE_NODES, MOST_STEPS_DOWN, MOST_CHILDREN))
            .collect();
        depths(name, &drawings);
    }
    depths("the deepest", &[generate::deepest()]);
}

fn depths(kind: &str, drawings: &[Vec<u8>]) {
    for drawing in drawings {
        assert_eq!(drawing.len(), SOURCE_NODES);
        for d in CHILDREN {
            assert_eq!(rattle_depth(drawing, d), regular::least_depth(drawing, d));
        }
    }
    let rattle = time(drawings, rattle_depth);
    let rust = time(drawings, regular::least_depth);
    println!(
        "{:24} Rattle {rattle:11.1}   Rust {rust:11.1} ({:.2})",
        format!("least depth, {kind}"),
        rattle / rust
    );
}

fn rattle_depth(source: &[u8], d: usize) -> Result<usize, u8> {
    let mut depth = 0;
    match maps::least_depth(source, d, &mut depth) {
        0 => Ok(depth),
        refusal => Err(refusal),
    }
}

/// Nanoseconds per call.
fn time<T>(drawings: &[Vec<u8>], least_depth: impl Fn(&[u8], usize) -> T) -> f64 {
    let best = crate::best_of(ROUNDS, || {
        for drawing in drawings {
            for d in CHILDREN {
                black_box(least_depth(black_box(drawing), black_box(d)));
            }
        }
    });
    best / (drawings.len() * CHILDREN.count()) as f64
}
