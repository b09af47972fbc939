//! The reader and the branch, on trees of 64 nodes.
//!
//! The second implementation builds a tree and allocates for it. To be fair
//! there is also a plain scan, as one would write it in Rust for speed.

use linduvar_tests::generate::{self, Shape};
use linduvar_tests::random::Random;
use linduvar_tests::topology::{
    branch, Topology, MOST_CHILDREN, MOST_STEPS_DOWN, SOURCE_NODES, TARGET_NODES,
};
use std::hint::black_box;

const TREES: usize = 500;
const ROUNDS: usize = 200;

pub fn run(random: &mut Random) {
    println!("the reader and the branch, the best of {ROUNDS} rounds over {TREES} trees:");
    for (name, shape) in [
        ("deep", Shape::Deep),
        ("wide", Shape::Wide),
        ("mixed", Shape::Mixed),
    ] {
        let inputs: Vec<(Vec<u8>, usize)> = (0..TREES)
            .map(|_| {
                let bytes =
                    generate::tree(random, shape, TARGET_NODES, MOST_STEPS_DOWN, MOST_CHILDREN);
                (bytes, random.below(TARGET_NODES))
            })
            .collect();
        for (bytes, node) in &inputs {
            assert_eq!(scan(bytes, TARGET_NODES), 0);
            assert_eq!(
                scan(bytes, SOURCE_NODES),
                linduvar::topology::read(bytes, SOURCE_NODES)
            );
            let branch = scan_branch(bytes, *node).map(|branch| branch.len());
            assert_eq!(branch, Ok(linduvar::topology::branch(bytes, *node).1));
        }

        report(
            &format!("read, {name}"),
            time(&inputs, |bytes, _| {
                linduvar::topology::read(bytes, TARGET_NODES)
            }),
            time(&inputs, |bytes, _| Topology::read(bytes, TARGET_NODES)),
            time(&inputs, |bytes, _| scan(bytes, TARGET_NODES)),
        );
        report(
            &format!("branch, {name}"),
            time(&inputs, linduvar::topology::branch),
            time(&inputs, branch),
            time(&inputs, |bytes, node| {
                scan_branch(bytes, node).map(|branch| branch.len())
            }),
        );
    }
}

/// Nanoseconds per call.
fn time<T>(inputs: &[(Vec<u8>, usize)], call: impl Fn(&[u8], usize) -> T) -> f64 {
    let best = crate::best_of(ROUNDS, || {
        for (bytes, node) in inputs {
            black_box(call(black_box(bytes), black_box(*node)));
        }
    });
    best / inputs.len() as f64
}

fn report(what: &str, rattle: f64, tree: f64, scan: f64) {
    println!(
        "{what:14} Rattle {rattle:7.1}   Rust, tree {tree:7.1} ({:.2})   Rust, scan {scan:7.1} ({:.2})",
        rattle / tree,
        rattle / scan
    );
}

/// Reads without building: keeps only how many children each node on the way
/// down from the root still waits for.
fn scan(bytes: &[u8], limit: usize) -> u8 {
    let mut waiting = [0; MOST_STEPS_DOWN + 1];
    let mut depth = 0;
    let mut complete = false;
    for (node, &count) in bytes.iter().enumerate() {
        if complete {
            return 2;
        }
        if node >= limit {
            return 3;
        }
        if usize::from(count) > MOST_CHILDREN {
            return 4;
        }
        if depth > MOST_STEPS_DOWN {
            return 5;
        }
        waiting[depth] = count;
        while waiting[depth] == 0 && depth > 0 {
            depth -= 1;
            waiting[depth] -= 1;
        }
        complete = waiting[depth] == 0;
        depth += 1;
    }
    u8::from(!complete)
}

fn scan_branch(bytes: &[u8], node: usize) -> Result<&[u8], u8> {
    match scan(bytes, TARGET_NODES) {
        0 if node >= bytes.len() => return Err(19),
        0 => {}
        refusal => return Err(refusal),
    }
    let mut end = node;
    let mut missing = 1;
    while missing > 0 {
        missing = missing - 1 + usize::from(bytes[end]);
        end += 1;
    }
    Ok(&bytes[node..end])
}
