//! A tree with disciplines: a pop and a push in turn, to a leaf and by path, and
//! one push of each kind alone.
//!
//! All inner nodes are weighted, and none has one child: such a node would be
//! passed over. A push by path has the largest ranks, so that
//! its entries go behind all others, as those of a push to a leaf do; then the
//! two differ by what the disciplines take.

use crate::queue_tree::{single, time, CALLS, ROUNDS};
use linduvar::tree;
use linduvar_tests::plain;
use linduvar_tests::plain_tree;
use linduvar_tests::queue_tree::{Step, MOST_PACKETS};
use linduvar_tests::rounds;
use linduvar_tests::scheduler::{self, Rule, Tree, ARRIVAL, WEIGHTED};
use linduvar_tests::topology::TARGET_NODES;
use linduvar_tests::translator::Path;
use std::hint::black_box;

const COMBS: usize = 4;
const LENGTH: u16 = 300;

pub fn run() {
    println!("with disciplines, a pop and a push, the best of {ROUNDS} rounds of {CALLS}:");
    for depth in [1, 4, 8] {
        for packets in [1, 32, MOST_PACKETS] {
            let weighted = Weighted::new(depth, packets);
            println!("depth {depth}, {packets:3} held");
            let to_leaf = rounds("to a leaf", &weighted, Weighted::rounds, |tree, calls| {
                scheduler::rounds(tree, weighted.leaf, 0, LENGTH, calls);
            });
            let by_path = rounds(
                "by path",
                &weighted,
                Weighted::path_rounds,
                |tree, calls| {
                    scheduler::path_rounds(tree, &weighted.path, calls);
                },
            );
            println!("  to a leaf over by path    {:.2}", to_leaf / by_path);
            singles(&weighted);
        }
    }
}

/// Rounds of a pop and a push on both sides. Nanoseconds that one takes in
/// Rattle.
fn rounds(
    name: &str,
    weighted: &Weighted,
    rattle: impl Fn(&Weighted, u32) -> linduvar::Tree,
    rust: impl Fn(&mut Tree, u32),
) -> f64 {
    let in_rust = |calls: u32| {
        let mut tree = black_box(&weighted.tree).clone();
        rust(&mut tree, calls);
        tree
    };
    let (after_rounds, expected) = (rattle(weighted, CALLS), in_rust(CALLS));
    assert_eq!(plain::read(&after_rounds.state), Some(expected.state()));
    assert_eq!(after_rounds.disciplines, expected.disciplines());
    let by_rattle = time(|calls| _ = black_box(rattle(weighted, calls)));
    let by_rust = time(|calls| _ = black_box(in_rust(calls)));
    println!(
        "  {name:22} Rattle {by_rattle:11.1}   Rust {by_rust:11.1} ({:.2})",
        by_rattle / by_rust
    );
    by_rattle
}

/// One push of each kind in Rattle, less the crossing.
fn singles(weighted: &Weighted) {
    let crossing = single(|| _ = black_box(weighted.rounds(0)));
    let to_leaf = single(|| _ = black_box(weighted.push_to_leaf())) - crossing;
    let by_path = single(|| _ = black_box(weighted.push())) - crossing;
    println!(
        "  one push: to a leaf {to_leaf:.1}, by path {by_path:.1} ({:.2}), crossing {crossing:.1}",
        to_leaf / by_path
    );
}

/// A tree of some combs that holds packets, its last leaf and the path there,
/// and what crosses the boundary to Rattle.
pub struct Weighted {
    tree: Tree,
    leaf: usize,
    path: Path,
    pub plain: linduvar::Tree,
    /// The same with one packet less.
    less: linduvar::Tree,
    plain_path: linduvar::Path,
}

impl Weighted {
    pub fn new(depth: usize, packets: usize) -> Weighted {
        let comb = [[2, 0].repeat(depth - 1), vec![0]].concat();
        let topology = [vec![COMBS as u8], comb.repeat(COMBS)].concat();
        let mut rules = [Rule {
            discipline: ARRIVAL,
            weight: 3,
        }; TARGET_NODES];
        for (rule, _) in rules
            .iter_mut()
            .zip(&topology)
            .filter(|(_, &byte)| byte > 0)
        {
            rule.discipline = WEIGHTED;
        }
        let mut tree =
            Tree::open(&topology, MOST_PACKETS, &rules).expect("a valid tree and right rules");
        for packet in 0..packets {
            let leaf = (packet % COMBS + 1) * comb.len();
            let held = tree.push_to_leaf(leaf, 0, LENGTH, packet as u32);
            assert_eq!(held, Ok(packet + 1));
        }
        let mut less = tree.clone();
        less.pop().expect("a packet is held");
        let step = |at: usize| Step {
            child: if at == 0 { COMBS } else { 2 } as u8,
            rank: u64::MAX,
        };
        let steps: Vec<Step> = (0..depth).map(step).collect();
        Weighted {
            plain: plain_tree::tree(&tree),
            less: plain_tree::tree(&less),
            plain_path: linduvar::Path::new(&steps, 0),
            tree,
            leaf: COMBS * comb.len(),
            path: Path {
                steps,
                leaf_rank: 0,
            },
        }
    }

    pub fn rounds(&self, rounds: u32) -> linduvar::Tree {
        rounds::to_leaf(black_box(&self.plain), self.leaf, 0, LENGTH, rounds)
    }

    pub fn path_rounds(&self, rounds: u32) -> linduvar::Tree {
        rounds::by_path(black_box(&self.plain), &self.plain_path, rounds)
    }

    /// A push to a leaf that is accepted.
    pub fn push_to_leaf(&self) -> linduvar::TreeAnswer {
        tree::push_to_leaf(black_box(&self.less), self.leaf, 0, LENGTH, 0)
    }

    /// A push by path that is accepted.
    pub fn push(&self) -> linduvar::TreeAnswer {
        tree::push(black_box(&self.less), &self.plain_path, 0)
    }

    /// A pop that departs.
    pub fn pop(&self) -> linduvar::TreeAnswer {
        tree::pop(black_box(&self.plain))
    }
}
