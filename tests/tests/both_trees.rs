//! Whole lists of calls over both trees, at every limit: the library's source
//! tree and its chip tree behind carried paths, beside the second
//! implementation's. The first difference ends the run.

use linduvar::{maps, queue};
use linduvar_tests::both_trees::BothTrees;
use linduvar_tests::pairs::{self, Drawn};
use linduvar_tests::queue_tree::{Refusal, MOST_PACKETS};
use linduvar_tests::random::{seeded, Random};
use linduvar_tests::reduced::Reduced;
use linduvar_tests::states::{any_path, Habits};
use linduvar_tests::topology::{Topology, SOURCE_NODES, TARGET_NODES};
use linduvar_tests::translator::Path;
use std::collections::BTreeMap;

const LISTS_A_LIMIT: usize = 3;

/// Each answer must be met this often.
const OFTEN_ENOUGH: usize = 50;

fn main() {
    seeded(every_limit);
}

fn every_limit(seed: u64) {
    let mut random = Random::new(seed);
    let mut answers = BTreeMap::new();
    let (mut lists, mut calls, mut shared) = (0, 0, 0);
    let (mut passing, mut lone_leaves) = (0, 0);
    for limit in 1..=MOST_PACKETS {
        let mut full = false;
        for list in 0..LISTS_A_LIMIT {
            let drawn = match list {
                0 => on_itself(pairs::drawing(&mut random, SOURCE_NODES)),
                _ => pairs::embedded(&mut random, SOURCE_NODES, TARGET_NODES),
            };
            let mut trees = Trees::open(drawn, limit);
            shared += usize::from(pairs::shares_a_node(&trees.target, &trees.map));
            passing += usize::from(trees.drawing.contains(&1));
            lone_leaves += usize::from(trees.drawing.iter().all(|&children| children < 2));
            // Every other list fills the trees first.
            let pushes = if list % 2 == 0 { 2 * limit + 10 } else { 0 };
            for answer in trees.calls(pushes, limit + 20, &mut random) {
                *answers.entry(answer).or_insert(0) += 1;
                full |= answer == 15;
                calls += 1;
            }
            lists += 1;
        }
        assert!(full, "limit {limit} was not met");
    }
    println!(
        "{lists} lists, in {shared} of them branches share a chip node, in {passing} nodes are"
    );
    println!(
        "passed over, in {lone_leaves} down to a leaf; {calls} calls, each limit met; how many met"
    );
    println!("each answer:");
    for lists in [shared, passing, lone_leaves] {
        assert!(lists >= OFTEN_ENOUGH, "only {lists} lists of a kind");
    }
    for (answer, times) in &answers {
        println!("  {times:7}  {answer}");
    }
    for answer in [0, 13, 14, 15, 16] {
        let met = answers.get(&answer).copied().unwrap_or(0);
        assert!(met >= OFTEN_ENOUGH, "{answer} was met only {met} times");
    }
}

/// A drawing on its own reduced drawing: where nodes with one child are left
/// out, all is as before.
fn on_itself(source: Vec<u8>) -> Drawn {
    let drawing = Topology::read(&source, SOURCE_NODES).expect("a valid tree");
    let reduced = Reduced::new(&drawing);
    let places: Vec<u8> = (0..reduced.kept.len() as u8).collect();
    Drawn {
        source,
        target: reduced.tree.bytes(),
        map: Some(reduced.spread(&drawing, &places)),
    }
}

/// Two trees of the library and two of the second implementation.
struct Trees {
    drawing: Vec<u8>,
    target: Vec<u8>,
    map: Vec<u8>,
    source: linduvar::State,
    chip: linduvar::State,
    rust: BothTrees,
}

impl Trees {
    fn open(drawn: Drawn, limit: usize) -> Trees {
        let map = drawn.map.expect("a pair made from a map");
        let state = |topology: &[u8]| {
            let opened = queue::open(topology, limit);
            assert_eq!(opened.refusal, 0);
            opened.state
        };
        let both = BothTrees::open(&drawn.source, &drawn.target, &map, limit);
        let trees = Trees {
            source: state(&drawn.source),
            chip: state(&drawn.target),
            rust: both.expect("a right map"),
            drawing: drawn.source,
            target: drawn.target,
            map,
        };
        trees.compare_counts();
        trees
    }

    /// A list of calls, those pushes first; the number of each answer.
    fn calls(&mut self, pushes: usize, others: usize, random: &mut Random) -> Vec<u8> {
        let habits = Habits::any(random);
        let mut pushes_in_ten = 10;
        (0..pushes + others)
            .map(|call| {
                if call >= pushes && random.one_in(20) {
                    pushes_in_ten = random.pick(&[1, 5, 8, 10]);
                }
                let answer = match random.below(10) < pushes_in_ten {
                    true => self.push(&habits, random),
                    false => self.pop(),
                };
                self.compare_counts();
                answer.0
            })
            .collect()
    }

    fn push(&mut self, habits: &Habits, random: &mut Random) -> Answer {
        let (path, _, _) = any_path(&self.drawing, habits, random);
        let packet = habits.packet(random);
        let source = taken(&mut self.source, |state| queue::push(state, &path, packet));
        let carried = maps::carry(&self.drawing, &self.target, &self.map, &path);
        let chip = match carried.refusal {
            0 => taken(&mut self.chip, |state| {
                queue::push(state, &carried.path, packet)
            }),
            refusal => (refusal, 0),
        };
        let drawn = Path {
            steps: path.steps().to_vec(),
            leaf_rank: path.leaf_rank,
        };
        let rust = match self.rust.push(&drawn, packet) {
            Ok(held) => (0, held as u32),
            Err(refusal) => refused(refusal),
        };
        self.compare("a push", source, chip, rust)
    }

    fn pop(&mut self) -> Answer {
        let popped = |state: &linduvar::State| queue::pop(state).answer;
        let source = taken(&mut self.source, popped);
        let chip = taken(&mut self.chip, popped);
        let rust = match self.rust.pop() {
            Ok(packet) => (0, packet),
            Err(refusal) => refused(refusal),
        };
        self.compare("a pop", source, chip, rust)
    }

    /// Packets held and refusals counted.
    fn compare_counts(&self) {
        for (what, count, rust) in [
            ("held", queue::held as Count, self.rust.held() as u32),
            ("refusals", queue::refusals, self.rust.refusals()),
        ] {
            let of = |state| {
                let amount = count(state);
                (amount.refusal, amount.value)
            };
            self.compare(what, of(&self.source), of(&self.chip), (0, rust));
        }
    }

    /// The one answer of all.
    fn compare(&self, what: &str, source: Answer, chip: Answer, rust: Answer) -> Answer {
        assert!(
            source == rust && chip == rust,
            "a difference: {what}\n  source {:?}\n  target {:?}\n  map {:?}\n  \
             Rattle, source {source:?}\n  Rattle, chip   {chip:?}\n  Rust           {rust:?}",
            self.drawing,
            self.target,
            self.map
        );
        rust
    }
}

/// 0 or the refusal, with the packets then held, the packet that departs, the
/// count that 15 returns, or 0.
type Answer = (u8, u32);

type Count = fn(&linduvar::State) -> linduvar::Amount;

/// Makes a call and keeps the state that it leaves.
fn taken(
    state: &mut linduvar::State,
    call: impl Fn(&linduvar::State) -> linduvar::Answer,
) -> Answer {
    let answer = call(state);
    *state = answer.state;
    (answer.refusal, answer.value)
}

fn refused(refusal: Refusal) -> Answer {
    let count = match refusal {
        Refusal::Full(count) => count,
        _ => 0,
    };
    (refusal.number(), count)
}
