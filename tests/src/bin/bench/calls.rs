//! Each exported call as a program in C or Rust makes it, on one input: the stack
//! that it takes, and its time with the crossing of the boundary counted.

use crate::queue_tree::Filled;
use crate::scheduler::Weighted;
use crate::stack;
use linduvar::chip::{self, Behind};
use linduvar::{maps, queue, topology, tree};
use linduvar_tests::queue_tree::{Step, MOST_PACKETS};
use linduvar_tests::random::Random;
use linduvar_tests::scheduler::{Rule, STRICT};
use linduvar_tests::topology::{MOST_STEPS_DOWN, SOURCE_NODES, TARGET_NODES};
use linduvar_tests::{embedding, laborious};
use std::hint::black_box;

const CALLS: usize = 20;
const ROUNDS: usize = 400;

pub fn run(random: &mut Random) {
    println!("each call with its crossing: bytes of stack, and ns, the best of {ROUNDS} rounds of {CALLS}:");
    let (source, target) = laborious::largest_pair();
    let (_, map) = embedding::search(&source, &target);
    let map = &map[..source.len()];
    let behind = Behind {
        source: &source,
        map,
    };
    drawings(behind, &target);
    for packets in [1, MOST_PACKETS] {
        println!("of a tree that holds {packets}:");
        queues(packets, random);
        trees(packets);
        chips(behind, &target, packets);
    }
}

/// The calls that take no state, on 32 nodes in 64, and the openings.
fn drawings(Behind { source, map }: Behind, target: &[u8]) {
    let path = two_steps();
    let rules = &strict_rules();
    assert_eq!(maps::carry(source, target, map, &path).refusal, 0);
    report("read", &|| topology::read(target, TARGET_NODES));
    report("branch", &|| topology::branch(target, 1));
    report("branch_byte", &|| topology::branch_byte(target, 1, 1));
    report("check", &|| maps::check(source, target, map));
    report("search", &|| {
        maps::search(source, target, &mut [0; SOURCE_NODES])
    });
    let (misfit, chip) = laborious::hard_pair();
    report("why", &|| maps::why(&misfit, &chip));
    report("least_depth", &|| maps::least_depth(source, 2, &mut 0));
    report("carry", &|| maps::carry(source, target, map, &path));
    report("open", &|| queue::open(target, MOST_PACKETS));
    report("tree_open", &|| tree::open(target, MOST_PACKETS, rules));
    report("chip_open", &|| {
        chip::open(source, target, MOST_PACKETS, rules)
    });
    report("pair_open", &|| {
        chip::open_both(source, target, MOST_PACKETS, rules)
    });
}

/// The calls on a queue tree of depth 8.
fn queues(packets: usize, random: &mut Random) {
    let filled = Filled::new(MOST_STEPS_DOWN, packets, random);
    report("a state in and out", &|| filled.rounds(0));
    report("held", &|| queue::held(&filled.state));
    report("refusals", &|| queue::refusals(&filled.state));
    report("push", &|| filled.push());
    report("pop", &|| filled.pop());
}

/// The calls on a tree with disciplines, of depth 8 and weighted throughout.
fn trees(packets: usize) {
    let weighted = Weighted::new(MOST_STEPS_DOWN, packets);
    let tree = &weighted.plain;
    report("a tree in and out", &|| weighted.rounds(0));
    report("tree_held", &|| tree::held(tree));
    report("tree_refusals", &|| tree::refusals(tree));
    report("tree_push", &|| weighted.push());
    report("tree_push_to_leaf", &|| weighted.push_to_leaf());
    report("tree_pop", &|| weighted.pop());
}

/// The calls on a chip's tree behind a map of 32 nodes in 64.
fn chips(behind: Behind, target: &[u8], packets: usize) {
    let leaf = behind.source.len() - 1;
    let push = |chip: &linduvar::Tree, packet: u32| {
        let answer = behind.push_to_leaf(chip, leaf, 1, 1, packet);
        assert_eq!((answer.refusal, answer.value), (0, packet));
        answer.tree
    };
    let opened = chip::open(behind.source, target, MOST_PACKETS, &strict_rules());
    let less = (1..packets as u32).fold(opened.tree, |chip, packet| push(&chip, packet));
    let chip = push(&less, packets as u32);
    let path = two_steps();
    assert_eq!(behind.push(&less, &path, 1).refusal, 0);
    report("chip_held", &|| behind.held(&chip));
    report("chip_refusals", &|| behind.refusals(&chip));
    report("chip_push", &|| behind.push(&less, &path, 1));
    report("chip_push_to_leaf", &|| {
        behind.push_to_leaf(&less, leaf, 1, 1, 1)
    });
    report("chip_pop", &|| behind.pop(&chip));
}

/// A path of the source.
fn two_steps() -> linduvar::Path {
    linduvar::Path::new(&[Step { child: 1, rank: 1 }; 2], 1)
}

fn strict_rules() -> linduvar::Rules {
    let rule = Rule {
        discipline: STRICT,
        weight: 1,
    };
    [rule; TARGET_NODES]
}

fn report<T>(name: &str, call: &(dyn Fn() -> T + Sync)) {
    let round = || (0..CALLS).for_each(|_| _ = black_box(call()));
    let time = crate::best_of(ROUNDS, round) / CALLS as f64;
    println!("{name:18} {:7} bytes {time:11.1} ns", stack::taken(call));
}
