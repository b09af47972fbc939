//! The queue tree: a pop and a push in turn, with some packets held.
//!
//! The rounds are made in one call, so that crossing the boundary, which
//! rewrites the state, is not counted. Below stand a push and a pop of Rattle
//! alone. A state goes in and comes out by value, so that the time of one copy
//! of a state stands first.

use linduvar::queue;
use linduvar_tests::plain;
use linduvar_tests::queue_tree::{self, QueueTree, Step, MOST_PACKETS};
use linduvar_tests::random::Random;
use linduvar_tests::rounds;
use std::hint::black_box;

const CHAINS: usize = 4;
/// Few enough to be done before another process has its turn.
pub const CALLS: u32 = 100;
pub const ROUNDS: usize = 400;
const SINGLES: usize = 2_000;
/// The bytes of a Rattle state, which are as many as those of its plain form.
pub const STATE: usize = size_of::<linduvar::State>();

pub fn run(random: &mut Random) {
    println!("a copy of the {STATE} bytes of a state  {:.1}", copy());
    println!("the queue tree, a pop and a push, the best of {ROUNDS} rounds of {CALLS}:");
    for depth in [1, 4, 8] {
        for packets in [1, 32, MOST_PACKETS] {
            let filled = Filled::new(depth, packets, random);
            let in_rust = |calls: u32| {
                let mut tree = black_box(&filled.tree).clone();
                let [first, second] = &filled.paths;
                queue_tree::rounds(&mut tree, [(first, 1), (second, 2)], calls);
                tree
            };
            assert_eq!(
                plain::read(&filled.rounds(CALLS)),
                Some(in_rust(CALLS).state())
            );
            let rattle = time(|calls| _ = black_box(filled.rounds(calls)));
            let rust = time(|calls| _ = black_box(in_rust(calls)));
            println!(
                "depth {depth}, {packets:3} held        Rattle {rattle:11.1}   Rust {rust:11.1} ({:.2})",
                rattle / rust
            );
            // One call each, less the crossing.
            let crossing = single(|| _ = black_box(filled.rounds(0)));
            let pop = single(|| _ = black_box(filled.pop()));
            let push = single(|| _ = black_box(filled.push()));
            println!(
                "{:25}push {:.1}, pop {:.1}, crossing {crossing:.1}",
                "",
                push - crossing,
                pop - crossing
            );
        }
    }
}

/// A tree of some chains that holds packets, two paths down it, and what
/// crosses the boundary to Rattle.
pub struct Filled {
    tree: QueueTree,
    paths: [Vec<Step>; 2],
    pub state: linduvar::State,
    /// The same with one packet less.
    less: linduvar::State,
    plain: [linduvar::Path; 2],
}

impl Filled {
    pub fn new(depth: usize, packets: usize, random: &mut Random) -> Filled {
        let chain = [vec![1; depth - 1], vec![0]].concat();
        let topology = [vec![CHAINS as u8], chain.repeat(CHAINS)].concat();
        let path = |chain: usize, random: &mut Random| -> Vec<Step> {
            (0..depth)
                .map(|at| Step {
                    child: if at == 0 { chain + 1 } else { 1 } as u8,
                    rank: random.below(4) as u64,
                })
                .collect()
        };
        let paths = [path(0, random), path(CHAINS - 1, random)];
        let mut tree = QueueTree::open(&topology, MOST_PACKETS).expect("a valid tree");
        for packet in 0..packets {
            let (rank, steps) = (random.below(7) as u64, path(packet % CHAINS, random));
            tree.push(&steps, rank, packet as u32)
                .expect("a right path");
        }
        let mut less = tree.clone();
        less.pop().expect("a packet is held");
        Filled {
            state: plain::state(&tree.state()),
            less: plain::state(&less.state()),
            plain: [
                linduvar::Path::new(&paths[0], 1),
                linduvar::Path::new(&paths[1], 2),
            ],
            tree,
            paths,
        }
    }

    pub fn rounds(&self, rounds: u32) -> linduvar::State {
        let [first, second] = &self.plain;
        rounds::queue(black_box(&self.state), first, second, rounds)
    }

    /// A pop that departs.
    pub fn pop(&self) -> linduvar::Popped {
        queue::pop(black_box(&self.state))
    }

    /// A push that is accepted.
    pub fn push(&self) -> linduvar::Answer {
        queue::push(black_box(&self.less), &self.plain[0], 0)
    }
}

/// Nanoseconds that one copy of a state takes, from and to the cache.
fn copy() -> f64 {
    let (from, mut to) = (vec![1_u8; STATE], vec![2_u8; STATE]);
    let all = crate::best_of(ROUNDS, || {
        for _ in 0..CALLS {
            black_box(&mut to).copy_from_slice(black_box(&from));
        }
    });
    all / f64::from(CALLS)
}

/// Nanoseconds that one call takes.
pub fn single(call: impl FnMut()) -> f64 {
    crate::best_of(SINGLES, call)
}

/// Nanoseconds per round; what a run without rounds takes is not counted.
pub fn time(run: impl Fn(u32)) -> f64 {
    let all = crate::best_of(ROUNDS, || run(CALLS));
    let start = crate::best_of(ROUNDS, || run(0));
    (all - start) / f64::from(CALLS)
}
