//! Asks the Rattle library and the second implementation why drawings have no map,
//! and holds the answers against the searches of both. The first difference ends
//! the run.

use linduvar::{maps, Diagnosis, LACKS_DEPTH, LACKS_LEAVES, LACKS_ROOM};
use linduvar_tests::diagnosis::{places, why};
use linduvar_tests::embedding::{self, read_pair, Pair};
use linduvar_tests::generate::{self, all_trees, chain};
use linduvar_tests::pairs;
use linduvar_tests::paper::lanes;
use linduvar_tests::random::{seeded, Random};
use linduvar_tests::reduced::Reduced;
use linduvar_tests::topology::{branch, Topology, SOURCE_NODES, TARGET_NODES};
use std::collections::BTreeMap;

const LARGE_PAIRS: usize = 3_000;
const NEAR_PAIRS: usize = 6_000;
const STRETCHED_PAIRS: usize = 6_000;
const DAMAGED_PAIRS: usize = 12_000;

const LOADS: Diagnosis = Diagnosis {
    refusal: 0,
    lack: 0,
    node: 0,
    needed: 0,
    there: 0,
};
const NO_MAP: u8 = 12;

fn main() {
    seeded(|seed| {
        examples(seed);
        every_small_pair(seed);
        random_pairs(seed);
    });
}

/// The paper's pairs and topologies, and some worked by hand.
fn examples(seed: u64) {
    let mut comparison = Comparison::new(seed);
    let mut loads = |source: &[u8], target: &[u8]| {
        assert_eq!(comparison.pair(source, target), LOADS);
    };
    // The paper's list.
    loads(&[3, 0, 0, 0], &[2, 2, 0, 0, 0]);
    loads(&[2, 0, 2, 0, 0], &[2, 2, 0, 0, 2, 0, 0]);
    loads(&[0], &[0]);
    loads(&[0], &[1, 0]);
    loads(&[1, 0], &[1, 1, 0]);
    loads(&[1, 1, 0], &[1, 0]);
    loads(&[1, 0], &[0]);
    loads(&[1, 2, 0, 0], &[1, 2, 0, 0]);
    loads(&lanes(), &[4, 0, 0, 0, 0]);
    loads(&chain(9), &chain(9));

    let mut lacks = |source: &[u8], target: &[u8], lack: u8, numbers: [usize; 3]| {
        let [node, needed, there] = numbers;
        let refusal = NO_MAP;
        let expected = Diagnosis {
            refusal,
            lack,
            node,
            needed,
            there,
        };
        let answer = comparison.pair(source, target);
        assert_eq!(answer, expected, "{source:?} in {target:?}");
    };
    lacks(&[2, 2, 0, 0, 0], &[3, 0, 0, 0], LACKS_DEPTH, [3, 2, 1]);
    let forks = [2, 2, 0, 0, 2, 0, 0];
    lacks(&[2, 3, 0, 0, 0, 0], &forks, LACKS_LEAVES, [1, 3, 2]);
    // Two forks side by side, in a chip whose forks lie one below the other.
    let comb = [2, 0, 2, 0, 2, 0, 0];
    lacks(&forks, &comb, LACKS_ROOM, [0, 0, 0]);
    // The same below a node that is passed over.
    lacks(&[1, 2, 2, 0, 0, 2, 0, 0], &comb, LACKS_ROOM, [1, 0, 0]);
    // The sample of refusal 12.
    lacks(&[2, 0, 0], &[1, 0], LACKS_LEAVES, [0, 2, 1]);
    // The top node lacks leaves, also if it lies below passed nodes.
    lacks(&[3, 0, 0, 0], &[2, 0, 0], LACKS_LEAVES, [0, 3, 2]);
    lacks(&[1, 1, 3, 0, 0, 0], &[1, 2, 0, 0], LACKS_LEAVES, [2, 3, 2]);
    // The last leaf that lies too deep. Passed nodes do not count as depth.
    lacks(&[2, 0, 2, 1, 0, 0], &[2, 0, 0], LACKS_DEPTH, [5, 2, 1]);
    lacks(&[2, 2, 0, 0, 1, 1, 0], &[2, 0, 0], LACKS_DEPTH, [3, 2, 1]);
    // No node lies as deep as node 2, and so none as deep as its leaves.
    lacks(
        &[2, 0, 2, 0, 2, 0, 0],
        &[3, 0, 0, 0],
        LACKS_DEPTH,
        [6, 3, 1],
    );

    for (bytes, refusal) in [
        (vec![], 1),
        (vec![2, 0], 1),
        (vec![0, 0], 2),
        ([vec![8; 4], vec![0; 29]].concat(), 3),
        (vec![9], 4),
        (chain(10), 5),
    ] {
        assert_eq!(comparison.pair(&bytes, &[0]).refusal, refusal);
    }
    assert_eq!(comparison.pair(&[2, 0], &[0, 0]).refusal, 1);
    assert_eq!(comparison.pair(&[0], &[0, 0]).refusal, 2);
    println!("examples: as they should be");
}

/// Every tree of up to 6 nodes in every tree of up to 8.
fn every_small_pair(seed: u64) {
    let mut comparison = Comparison::new(seed);
    for source in (1..=6).flat_map(all_trees) {
        for target in (1..=8).flat_map(all_trees) {
            comparison.pair(&source, &target);
        }
    }
    comparison.print("small pairs");
}

/// Random pairs of full size, whole and damaged.
fn random_pairs(seed: u64) {
    let mut random = Random::new(seed);
    let mut comparison = Comparison::new(seed);
    for _ in 0..LARGE_PAIRS {
        let drawn = pairs::any(&mut random, SOURCE_NODES, TARGET_NODES);
        comparison.pair(&drawn.source, &drawn.target);
    }
    comparison.print("random pairs, up to 32 in 64 nodes");
    for _ in 0..NEAR_PAIRS {
        let chip_nodes = random.pick(&[SOURCE_NODES, 40, TARGET_NODES]);
        let drawn = pairs::embedded(&mut random, SOURCE_NODES - 1, chip_nodes);
        let source = with_a_leaf(&mut random, drawn.source);
        comparison.pair(&source, &drawn.target);
    }
    comparison.print("and drawings that load, with one leaf more");
    for _ in 0..STRETCHED_PAIRS {
        let drawn = pairs::any(&mut random, SOURCE_NODES / 2, TARGET_NODES / 2);
        let source = pairs::stretched(&mut random, drawn.source.clone(), SOURCE_NODES);
        comparison.stretched(&drawn.source, &source, &drawn.target);
    }
    comparison.print("and drawings with many passed nodes");
    for _ in 0..DAMAGED_PAIRS {
        let mut drawn = pairs::any(&mut random, SOURCE_NODES, TARGET_NODES);
        let which = random.below(3);
        if which != 0 {
            drawn.source = generate::any(&mut random);
        }
        if which != 1 {
            drawn.target = generate::any(&mut random);
        }
        comparison.pair(&drawn.source, &drawn.target);
    }
    comparison.print("and damaged ones");
    comparison.require_all();
}

/// A drawing with a leaf more below one of its nodes.
fn with_a_leaf(random: &mut Random, mut source: Vec<u8>) -> Vec<u8> {
    let parent = random.below(source.len());
    source[parent] += 1;
    source.insert(parent + 1, 0);
    source
}

/// Asks both sides, and counts how often each kind of answer was met.
struct Comparison {
    seed: u64,
    pairs: usize,
    answers: BTreeMap<Kind, usize>,
}

/// The refusal, the lack, and whether the misfit lies below the top node.
type Kind = (u8, u8, bool);

/// The leaf that lacks depth is never the top node.
const KINDS: [Kind; 11] = [
    (0, 0, false),
    (1, 0, false),
    (2, 0, false),
    (3, 0, false),
    (4, 0, false),
    (5, 0, false),
    (NO_MAP, LACKS_DEPTH, true),
    (NO_MAP, LACKS_LEAVES, false),
    (NO_MAP, LACKS_LEAVES, true),
    (NO_MAP, LACKS_ROOM, false),
    (NO_MAP, LACKS_ROOM, true),
];

fn kind(source: &[u8], answer: Diagnosis) -> Kind {
    let below = answer.refusal == NO_MAP && answer.node != kept(source)[0];
    (answer.refusal, answer.lack, below)
}

impl Comparison {
    fn new(seed: u64) -> Comparison {
        Comparison {
            seed,
            pairs: 0,
            answers: BTreeMap::new(),
        }
    }

    /// The answer of both sides, which must hold.
    fn pair(&mut self, source: &[u8], target: &[u8]) -> Diagnosis {
        let rattle = maps::why(source, target);
        let rust = why(source, target);
        if rattle != rust {
            panic!(
                "a difference\n  seed   {}\n  source {source:?}\n  target {target:?}\n  \
                 Rattle {rattle:?}\n  Rust   {rust:?}",
                self.seed
            );
        }
        holds(source, target, rattle);
        *self.answers.entry(kind(source, rattle)).or_default() += 1;
        self.pairs += 1;
        rattle
    }

    /// A drawing, and the same with passed nodes put in: they alter nothing but
    /// the numbers of its nodes.
    fn stretched(&mut self, source: &[u8], longer: &[u8], target: &[u8]) {
        let mut expected = self.pair(source, target);
        if expected.refusal == NO_MAP {
            let place = kept(source).iter().position(|&node| node == expected.node);
            expected.node = kept(longer)[place.expect("a misfit is kept")];
        }
        let answer = self.pair(longer, target);
        assert_eq!(answer, expected, "{longer:?} in {target:?}");
    }

    fn print(&self, what: &str) {
        let counts: Vec<String> = self
            .answers
            .iter()
            .map(|((refusal, lack, below), met)| match (lack, below) {
                (0, _) => format!("{refusal}: {met}"),
                (_, false) => format!("{refusal}, the top node lacks {lack}: {met}"),
                (_, true) => format!("{refusal}, a node below lacks {lack}: {met}"),
            })
            .collect();
        println!("{what}: {} pairs; how many met each answer:", self.pairs);
        println!("  {}", counts.join("; "));
    }

    fn require_all(&self) {
        for kind in KINDS {
            assert!(self.answers.contains_key(&kind), "{kind:?} was not met");
        }
        assert_eq!(self.answers.len(), KINDS.len());
    }
}

fn kept(source: &[u8]) -> Vec<usize> {
    let drawing = Topology::read(source, SOURCE_NODES).expect("a valid tree");
    Reduced::new(&drawing).kept
}

/// What an answer says, tried by searches: its refusal is that of the search; and
/// the named branch alone loads on no branch of the chip where it may go, but that
/// of each later kept node does.
fn holds(source: &[u8], target: &[u8], answer: Diagnosis) {
    let searched = maps::search(source, target, &mut [0; SOURCE_NODES]);
    assert_eq!(answer.refusal, searched, "{source:?} in {target:?}");
    if searched != NO_MAP {
        return assert_eq!((answer.lack, answer.node), (0, 0));
    }
    let Ok(pair) = read_pair(source, target) else {
        panic!("the search reads both trees first");
    };
    let reduced = Reduced::new(&pair.source);
    let misfit = reduced.kept.iter().position(|&node| node == answer.node);
    let misfit = misfit.expect("a misfit is kept");
    assert!(!loads_somewhere(&reduced, &pair, misfit));
    for later in misfit + 1..reduced.kept.len() {
        assert!(loads_somewhere(&reduced, &pair, later));
    }
}

/// Whether the branch of a node of the reduced drawing, as it is drawn, loads on a
/// branch of the chip where the node may go.
fn loads_somewhere(reduced: &Reduced, pair: &Pair, node: usize) -> bool {
    let part = |tree: &Topology, node: usize| branch(&tree.bytes(), node).expect("a node");
    let drawing = part(&pair.source, reduced.kept[node]);
    places(&reduced.tree, &pair.target, node)
        .into_iter()
        .any(|place| embedding::search(&drawing, &part(&pair.target, place)).0 == 0)
}
