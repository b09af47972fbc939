//! The carrying of a path, with the check of its map.

use linduvar::maps;
use linduvar_tests::pairs;
use linduvar_tests::queue_tree::Step;
use linduvar_tests::random::Random;
use linduvar_tests::topology::{Topology, SOURCE_NODES, TARGET_NODES};
use linduvar_tests::translator::{self, Path};
use std::hint::black_box;

const PATHS: usize = 500;
const ROUNDS: usize = 100;

pub fn run(random: &mut Random) {
    println!("carrying a path, the best of {ROUNDS} rounds over {PATHS} paths:");
    for (source, target) in [(4, 5), (8, 12), (SOURCE_NODES, TARGET_NODES)] {
        let inputs: Vec<Input> = (0..PATHS)
            .map(|_| Input::new(source, target, random))
            .collect();
        for input in &inputs {
            assert_eq!((input.by_rattle(), input.by_rust()), (0, 0));
        }
        let time = |carry: fn(&Input) -> u8| {
            let all = || {
                inputs
                    .iter()
                    .for_each(|input| _ = black_box(carry(black_box(input))))
            };
            crate::best_of(ROUNDS, all) / PATHS as f64
        };
        let (rattle, rust) = (time(Input::by_rattle), time(Input::by_rust));
        println!(
            "up to {source:2} nodes in {target:2}   Rattle {rattle:9.1}   Rust {rust:9.1} ({:.2})",
            rattle / rust
        );
    }
}

/// A pair, a map, and a path down some leaf of the source.
struct Input {
    source: Vec<u8>,
    target: Vec<u8>,
    map: Vec<u8>,
    path: Path,
    plain: linduvar::Path,
}

impl Input {
    fn new(source: usize, target: usize, random: &mut Random) -> Input {
        let drawn = pairs::embedded(random, source, target);
        let steps = down(&drawn.source, random);
        Input {
            map: drawn.map.expect("a pair made from a map"),
            source: drawn.source,
            target: drawn.target,
            plain: linduvar::Path::new(&steps, 1),
            path: Path {
                steps,
                leaf_rank: 1,
            },
        }
    }

    fn by_rattle(&self) -> u8 {
        let (source, target, map) = (&self.source, &self.target, &self.map);
        let carried = maps::carry(source, target, map, &self.plain);
        black_box(carried).refusal
    }

    fn by_rust(&self) -> u8 {
        match black_box(translator::carry(
            &self.source,
            &self.target,
            &self.map,
            &self.path,
        )) {
            Ok(_) => 0,
            Err(refusal) => refusal,
        }
    }
}

/// The way from the root to some leaf.
fn down(topology: &[u8], random: &mut Random) -> Vec<Step> {
    let topology = Topology::read(topology, TARGET_NODES).expect("a valid tree");
    let mut steps = Vec::new();
    let mut node = 0;
    while topology.child_count(node) > 0 {
        let child = random.below(topology.child_count(node));
        let rank = random.below(9) as u64;
        steps.push(Step {
            child: child as u8 + 1,
            rank,
        });
        node = topology.children(node)[child];
    }
    steps
}
