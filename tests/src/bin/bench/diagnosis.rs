//! Why a drawing has no map, on pairs that are refused by 12.

use linduvar::maps;
use linduvar_tests::diagnosis;
use linduvar_tests::generate::{self, SHAPES};
use linduvar_tests::laborious;
use linduvar_tests::random::Random;
use linduvar_tests::topology::{SOURCE_NODES, TARGET_NODES};
use std::hint::black_box;

const PAIRS: usize = 3_000;
const ROUNDS: usize = 5;

/// A source, a target, and how long Rattle and Rust took.
struct Timed {
    source: Vec<u8>,
    target: Vec<u8>,
    rattle: f64,
    rust: f64,
}

pub fn run(random: &mut Random) {
    println!(
        "why there is no map, the best of {ROUNDS} rounds, {PAIRS} random pairs of 32 nodes in 64:"
    );
    let mut pairs: Vec<Timed> = (0..PAIRS).map(|_| refused(random)).collect();
    pairs.sort_by(|a, b| a.rust.total_cmp(&b.rust));
    let rust = pairs[PAIRS / 2].rust;
    pairs.sort_by(|a, b| a.rattle.total_cmp(&b.rattle));
    report("half take at most", pairs[PAIRS / 2].rattle, rust);
    let slowest = &pairs[PAIRS - 1];
    report("the slowest", slowest.rattle, slowest.rust);
    println!("  {:?} in {:?}", slowest.source, slowest.target);
    for (name, (source, target)) in [
        ("fans, none", laborious::hard_pair()),
        ("nested stars, forks", nested_stars()),
    ] {
        let Timed { rattle, rust, .. } = timed(source, target);
        report(name, rattle, rust);
    }
}

/// A random pair of full size without a map.
fn refused(random: &mut Random) -> Timed {
    loop {
        let source = tree(random, SOURCE_NODES);
        let target = tree(random, TARGET_NODES);
        if maps::search(&source, &target, &mut [0; SOURCE_NODES]) == 12 {
            return timed(source, target);
        }
    }
}

fn tree(random: &mut Random, nodes: usize) -> Vec<u8> {
    let shape = random.pick(&SHAPES);
    let depth = random.pick(&[4, 6, 8]);
    let children = random.pick(&[3, 5, 8]);
    generate::tree(random, shape, nodes, depth, children)
}

/// The slowest pair that was found. Node 2 is tried everywhere below the chip's
/// root, and most of the chip lies below six of these nodes.
fn nested_stars() -> (Vec<u8>, Vec<u8>) {
    let fan = |children: usize| [vec![children as u8], vec![0; children]].concat();
    let nested = [vec![8], vec![0; 7], fan(8)].concat();
    let source = [vec![2, 0, 5], nested, fan(8), vec![0; 3]].concat();
    let fork = [vec![7], fan(8).repeat(5), fan(4), vec![0]].concat();
    let forks = [vec![2; 6], fork, vec![0; 6]].concat();
    (source, forks)
}

/// Both sides give the same answer, and their times.
fn timed(source: Vec<u8>, target: Vec<u8>) -> Timed {
    assert_eq!(
        maps::why(&source, &target),
        diagnosis::why(&source, &target)
    );
    let rattle = crate::best_of(ROUNDS, || _ = black_box(maps::why(&source, &target)));
    let rust = crate::best_of(ROUNDS, || _ = black_box(diagnosis::why(&source, &target)));
    Timed {
        source,
        target,
        rattle,
        rust,
    }
}

fn report(what: &str, rattle: f64, rust: f64) {
    println!(
        "{:24} Rattle {rattle:11.1}   Rust {rust:11.1} ({:.2})",
        format!("why, {what}"),
        rattle / rust
    );
}
