//! The search and the check, on pairs of several kinds.

use linduvar::maps;
use linduvar_tests::embedding;
use linduvar_tests::generate::chain;
use linduvar_tests::laborious;
use linduvar_tests::pairs;
use linduvar_tests::random::Random;
use linduvar_tests::topology::{SOURCE_NODES, TARGET_NODES};
use std::hint::black_box;

const PAIRS: usize = 200;
const ROUNDS: usize = 10;

type Pair = (Vec<u8>, Vec<u8>);

pub fn run(random: &mut Random) {
    println!("the search, the best of {ROUNDS} rounds over up to {PAIRS} pairs:");
    let unrelated: Vec<Pair> = (0..PAIRS)
        .map(|_| {
            let source = pairs::tree(random, SOURCE_NODES);
            (source, pairs::tree(random, TARGET_NODES))
        })
        .collect();
    search("random", &unrelated);

    let mut embedded = |source_nodes: usize, target_nodes: usize| -> Vec<Pair> {
        (0..PAIRS)
            .map(|_| pairs::embedded(random, source_nodes, target_nodes))
            .map(|drawn| (drawn.source, drawn.target))
            .collect()
    };
    // How the time grows with the nodes, and then with one node's children.
    for nodes in [4, 8, 16] {
        let pairs = embedded(nodes, 2 * nodes);
        search(&format!("embed, {nodes} in {}", 2 * nodes), &pairs);
    }
    let large = embedded(SOURCE_NODES, TARGET_NODES);
    search("embed, 32 in 64", &large);
    for children in [1, 2, 4, 6, 8] {
        search(
            &format!("{children} leaves, chains"),
            &[(fan(children), bunch(7, 8))],
        );
    }

    search("combs", &[(combs(8, 1), combs(7, 3))]);
    let stars = [vec![7], fan(8).repeat(3), vec![0; 4]].concat();
    let spine = [[8, 0, 0, 0, 0, 0, 0, 0].repeat(7), fan(7)].concat();
    let stalk = [vec![1; 6], vec![7], fan(8).repeat(6), fan(2)].concat();
    search("stars, a spine", &[(stars.clone(), spine)]);
    search("stars, a stalk", &[(stars.clone(), stalk)]);
    // No two of these target nodes with children have branches that end together.
    let fork = [vec![7], fan(8).repeat(5), fan(4), vec![0]].concat();
    let forks = [vec![2; 6], fork, vec![0; 6]].concat();
    search("stars, forks", &[(stars, forks)]);
    let (source, few) = laborious::hard_pair();
    let enough = [vec![8], fan(7).repeat(5), fan(8), vec![0, 1], fan(8)].concat();
    search("fans, none", &[(source.clone(), few)]);
    search("fans, a map", &[(source, enough)]);

    println!("the check, on the least maps of the pairs that embed:");
    check("32 in 64", &large);
}

/// A root with that many chains below it.
fn bunch(chains: usize, nodes: usize) -> Vec<u8> {
    [vec![chains as u8], chain(nodes).repeat(chains)].concat()
}

/// A root with that many combs below it: a comb's node has a leaf and the next.
fn combs(combs: usize, teeth: usize) -> Vec<u8> {
    let comb = [[2, 0].repeat(teeth), vec![0]].concat();
    [vec![combs as u8], comb.repeat(combs)].concat()
}

/// A node with that many leaves.
fn fan(children: usize) -> Vec<u8> {
    [vec![children as u8], vec![0; children]].concat()
}

fn search(kind: &str, pairs: &[Pair]) {
    let rattle_search = |source: &[u8], target: &[u8]| {
        let mut map = [0; SOURCE_NODES];
        let answer = maps::search(source, target, &mut map);
        (answer, map)
    };
    let mut found = 0;
    for (source, target) in pairs {
        let (answer, map) = embedding::search(source, target);
        assert_eq!(rattle_search(source, target), (answer, map));
        found += usize::from(answer == 0);
    }
    report(
        &format!("search, {kind}"),
        time(pairs, rattle_search),
        time(pairs, embedding::search),
    );
    println!("{:25}{found} of {} have a map", "", pairs.len());
}

fn check(kind: &str, pairs: &[Pair]) {
    let inputs: Vec<(&Pair, Vec<u8>)> = pairs
        .iter()
        .map(|pair| {
            let (_, map) = embedding::search(&pair.0, &pair.1);
            (pair, map[..pair.0.len()].to_vec())
        })
        .collect();
    let time = |check: fn(&[u8], &[u8], &[u8]) -> u8| {
        let best = crate::best_of(ROUNDS, || {
            for ((source, target), map) in &inputs {
                assert_eq!(check(source, target, black_box(map)), 0);
            }
        });
        best / inputs.len() as f64
    };
    report(
        &format!("check, {kind}"),
        time(maps::check),
        time(embedding::check),
    );
}

/// Nanoseconds per call.
fn time<T>(pairs: &[Pair], search: impl Fn(&[u8], &[u8]) -> T) -> f64 {
    let best = crate::best_of(ROUNDS, || {
        for (source, target) in pairs {
            black_box(search(black_box(source), black_box(target)));
        }
    });
    best / pairs.len() as f64
}

fn report(what: &str, rattle: f64, rust: f64) {
    println!(
        "{what:24} Rattle {rattle:11.1}   Rust {rust:11.1} ({:.2})",
        rattle / rust
    );
}
