//! Puts the same pairs, maps and paths to the Rattle library and to the second
//! implementation. The first difference ends the run.

use linduvar::{maps, MAX_STEPS};
use linduvar_tests::embedding::{self, read_pair};
use linduvar_tests::generate::{self, all_trees, chain};
use linduvar_tests::pairs::{self, damaged_map, Drawn};
use linduvar_tests::queue_tree::Step;
use linduvar_tests::random::{seeded, Random};
use linduvar_tests::reduced::PASSED_OVER;
use linduvar_tests::states::{any_path, noise_behind, Habits, PATHS};
use linduvar_tests::topology::{Topology, MOST_STEPS_DOWN, SOURCE_NODES, TARGET_NODES};
use linduvar_tests::translator::{self, Path};
use std::collections::BTreeMap;
use std::fmt;

const SMALL_PAIRS: usize = 20_000;
const LARGE_PAIRS: usize = 5_000;
const DAMAGED_PAIRS: usize = 12_000;
const PATHS_A_MAP: usize = 4;

/// Each answer, each kind of path, each occasion and each length must be met
/// this often.
const OFTEN_ENOUGH: usize = 50;

fn main() {
    seeded(|seed| {
        examples(seed);
        whole_paths();
        long_strings();
        every_chain(seed);
        let mut comparison = Comparison::new(seed);
        let mut random = Random::new(seed);
        for _ in 0..SMALL_PAIRS {
            comparison.pair(&pairs::any(&mut random, 8, 12), &mut random);
        }
        for _ in 0..LARGE_PAIRS {
            let drawn = pairs::any(&mut random, SOURCE_NODES, TARGET_NODES);
            comparison.pair(&drawn, &mut random);
        }
        for _ in 0..DAMAGED_PAIRS {
            comparison.damaged_pair(&mut random);
        }
        comparison.print();
        comparison.require_everything();
    });
}

/// Worked by hand.
fn examples(seed: u64) {
    let mut comparison = Comparison::new(seed);
    let mut carry =
        |drawn: (&[u8], &[u8], &[u8]), steps: &[(u8, u64)], answer: Result<Vec<(u8, u64)>, u8>| {
            let (source, target, map) = drawn;
            let path = plain_path(steps);
            let carried = comparison.carry(source, target, map, &path);
            let expected = match answer {
                Ok(steps) => (plain_path(&steps), 0),
                Err(refusal) => (path, refusal),
            };
            let met = (carried.path, carried.refusal);
            assert_eq!(met, expected, "{steps:?} over {map:?}");
        };
    // The paper's script.
    let script: (&[u8], &[u8], &[u8]) = (&[3, 0, 0, 0], &[2, 2, 0, 0, 0], &[0, 2, 3, 4]);
    carry(script, &[(3, 5)], Ok(vec![(2, 5)]));
    carry(script, &[(1, 5)], Ok(vec![(1, 5), (1, 5)]));
    carry(script, &[(2, 3)], Ok(vec![(1, 3), (2, 3)]));
    carry(script, &[(0, 3)], Err(13));
    carry(script, &[(4, 3)], Err(13));
    carry(script, &[(1, 3), (1, 3)], Err(13));
    carry(script, &[(1, 1); 9], Err(13));
    carry(script, &[], Err(14));

    // Steps of different ranks, each over more than one chip node; the chip
    // has the children the other way round.
    let apart: (&[u8], &[u8], &[u8]) = (
        &[2, 2, 0, 0, 0],
        &[2, 0, 1, 2, 1, 0, 1, 0],
        &[0, 3, 7, 5, 1],
    );
    carry(
        apart,
        &[(1, 9), (1, 4)],
        Ok(vec![(2, 9), (1, 9), (2, 4), (1, 4)]),
    );
    carry(
        apart,
        &[(1, 4), (2, 9)],
        Ok(vec![(2, 4), (1, 4), (1, 9), (1, 9)]),
    );
    carry(apart, &[(2, u64::MAX)], Ok(vec![(1, u64::MAX)]));
    carry(apart, &[(1, 4)], Err(14));
    carry(apart, &[(3, 4), (1, 1)], Err(13));
    carry(apart, &[(2, 4), (1, 1)], Err(13));

    // One step over eight, eight over eight, none over none.
    let long_and_short = [vec![2], chain(8), vec![0]].concat();
    let lane: (&[u8], &[u8], &[u8]) = (&[2, 0, 0], &long_and_short, &[0, 8, 9]);
    carry(lane, &[(1, 7)], Ok(vec![(1, 7); 8]));
    let ranks: Vec<(u8, u64)> = (1..=8).map(|rank| (2, rank)).collect();
    let comb = [[2, 0].repeat(8), vec![0]].concat();
    let all: Vec<u8> = (0..17).collect();
    carry((&comb, &comb, &all), &ranks, Ok(ranks.clone()));
    carry((&[0], &[0], &[0]), &[], Ok(vec![]));
    carry((&[0], &[0], &[0]), &[(1, 1)], Err(13));

    // The root, node 3 and node 5 are passed over. The step into node 3 goes on
    // to node 4, and those of the three give none.
    let passing: (&[u8], &[u8], &[u8]) = (
        &[1, 2, 0, 1, 2, 1, 0, 0],
        &[2, 1, 2, 0, 0, 0],
        &[255, 0, 5, 255, 2, 255, 4, 3],
    );
    carry(passing, &[(1, 9), (1, 4)], Ok(vec![(2, 4)]));
    carry(
        passing,
        &[(1, 9), (2, 4), (1, 8), (1, 3), (1, 7)],
        Ok(vec![(1, 4), (1, 4), (2, 3)]),
    );
    carry(
        passing,
        &[(1, 9), (2, 4), (1, 8), (2, 3)],
        Ok(vec![(1, 4), (1, 4), (1, 3)]),
    );
    // The path as drawn is tested, where nodes are passed over too.
    carry(passing, &[(2, 4)], Err(13));
    carry(passing, &[(1, 9), (2, 4), (2, 8), (2, 3)], Err(13));
    carry(
        passing,
        &[(1, 9), (2, 4), (1, 8), (1, 3), (1, 7), (1, 1)],
        Err(13),
    );
    carry(passing, &[], Err(14));
    carry(passing, &[(1, 9), (2, 4)], Err(14));
    carry(passing, &[(1, 9), (2, 4), (1, 8), (1, 3)], Err(14));
    // Above a lone leaf the chip's ranks are 0.
    let hut: (&[u8], &[u8], &[u8]) = (&[1, 1, 0], &[2, 0, 1, 1, 0], &[255, 255, 4]);
    carry(hut, &[(1, 9), (1, 8)], Ok(vec![(2, 0), (1, 0), (1, 0)]));
    carry(hut, &[(1, 9)], Err(14));
    carry(hut, &[(1, 9), (2, 8)], Err(13));
    carry((&[0], &[1, 0], &[1]), &[], Ok(vec![(1, 0)]));
    carry((&[1, 0], &[0], &[255, 0]), &[(1, 9)], Ok(vec![]));

    // Topologies, the source first, then the map, then the path.
    carry((&[2, 0], &[0, 0], &[]), &[(0, 0)], Err(1));
    carry((&[0], &[0, 0], &[]), &[(0, 0)], Err(2));
    carry((&[0], &[0], &[]), &[(0, 0)], Err(6));
    carry((&[1, 0], &[0], &[0, 1]), &[(0, 0)], Err(26));
    carry((&[0], &[0], &[1]), &[(0, 0)], Err(7));
    carry((&[2, 0, 0], &[2, 0, 0], &[1, 1, 2]), &[(0, 0)], Err(8));
    carry((&[2, 0, 0], &[2, 0, 0], &[1, 0, 2]), &[(0, 0)], Err(9));
    carry((&[0], &[1, 0], &[0]), &[(0, 0)], Err(10));
    let siblings: (&[u8], &[u8], &[u8]) = (
        &[2, 0, 2, 0, 0],
        &[3, 2, 0, 0, 1, 2, 0, 0, 0],
        &[0, 7, 4, 6, 8],
    );
    carry(siblings, &[(0, 0)], Err(11));
    println!("examples: as worked by hand");
}

fn plain_path(steps: &[(u8, u64)]) -> linduvar::Path {
    let steps: Vec<Step> = steps
        .iter()
        .map(|&(child, rank)| Step { child, rank })
        .collect();
    linduvar::Path::new(&steps, 18_000_000_000_000_000_007)
}

/// All that comes back: a carried path has zeros past its last step, and a
/// refused one is as it came. A count above nine reads as nine.
fn whole_paths() {
    let (source, target, map) = (&[2, 0, 0], &[2, 1, 0, 0], &[0, 2, 3]);
    let path = |count: usize| linduvar::Path {
        steps: [1, 2, 3, 4, 5, 6, 7, 8, 9].map(|at| Step {
            child: at,
            rank: 100 + (u64::from(at) << 32),
        }),
        count,
        leaf_rank: 77,
    };
    let mut steps = [Step { child: 0, rank: 0 }; MAX_STEPS];
    steps[..2].fill(Step {
        child: 1,
        rank: 100 + (1 << 32),
    });
    let carried = linduvar::Carried {
        path: linduvar::Path {
            steps,
            count: 2,
            leaf_rank: 77,
        },
        refusal: 0,
    };
    assert_eq!(maps::carry(source, target, map, &path(1)), carried);

    let refused = |map: &[u8], count: usize, refusal: u8| {
        let path = path(count);
        let answer = maps::carry(source, target, map, &path);
        assert_eq!(answer, linduvar::Carried { path, refusal });
    };
    refused(map, 0, 14);
    for count in [2, 8, 9, 10, 256, 257, 1 << 32, (1 << 32) + 1, usize::MAX] {
        refused(map, count, 13);
    }
    for count in [0, 1, 9, usize::MAX] {
        refused(&[0, 1, 3], count, 10);
        refused(&[0], count, 6);
    }
    println!("whole paths: as worked by hand");
}

/// Strings far beyond any limit still get an answer.
fn long_strings() {
    const LENGTH: usize = 1_000_000;
    let (ones, zeros) = (vec![1; LENGTH], vec![0; LENGTH]);
    let refused = |source: &[u8], target: &[u8], map: &[u8], refusal: u8| {
        let path = linduvar::Path::new(&[], 7);
        let answer = maps::carry(source, target, map, &path);
        assert_eq!(answer, linduvar::Carried { path, refusal });
    };
    refused(&ones, &zeros, &zeros, 5);
    refused(&[0], &zeros, &zeros, 2);
    refused(&[0], &[0], &zeros, 6);
    println!("long strings: answered");
}

/// Every chain into every tree of up to 8 nodes, to each of its leaves: along the
/// whole chain, one step less and one more. On the chip all ranks are 0.
fn every_chain(seed: u64) {
    let mut comparison = Comparison::new(seed);
    for target in (1..=8).flat_map(all_trees) {
        let leaves = (0..target.len()).filter(|&place| target[place] == 0);
        for (nodes, leaf) in leaves.flat_map(|leaf| (1..=10).map(move |nodes| (nodes, leaf))) {
            let map = [vec![PASSED_OVER; nodes - 1], vec![leaf as u8]].concat();
            for steps in [nodes.saturating_sub(2), nodes - 1, nodes] {
                let path = plain_path(&vec![(1, 5); steps]);
                let carried = comparison.carry(&chain(nodes), &target, &map, &path);
                if carried.refusal == 0 {
                    assert!(carried.path.steps().iter().all(|step| step.rank == 0));
                }
            }
        }
    }
    for answer in [0, 13, 14] {
        require("a chain", &comparison.answers, (answer, ""));
    }
    require("a chain", &comparison.answers, (5, "source"));
    println!(
        "every chain in every small chip: {} paths",
        comparison.paths
    );
}

/// What is worth to be met besides the answers and the kinds of paths.
const OCCASIONS: [&str; 7] = [
    "carried, with noise behind the steps",
    "refused, with noise behind the steps",
    "refused by 13, with a count above nine",
    "carried, with nodes passed over",
    "carried, above a lone leaf",
    "refused by 13 or 14, with nodes passed over",
    "carried, with a step rank and a leaf rank above 32 bits",
];

/// Asks both sides, and counts what was met.
struct Comparison {
    seed: u64,
    pairs: usize,
    paths: usize,
    answers: BTreeMap<(u8, &'static str), usize>,
    kinds: BTreeMap<&'static str, usize>,
    /// How many paths were carried over to that many steps.
    lengths: BTreeMap<usize, usize>,
    /// How many paths were carried over to that many steps more, or fewer.
    longer_by: BTreeMap<isize, usize>,
}

impl Comparison {
    fn new(seed: u64) -> Comparison {
        Comparison {
            seed,
            pairs: 0,
            paths: 0,
            answers: BTreeMap::new(),
            kinds: BTreeMap::new(),
            lengths: BTreeMap::new(),
            longer_by: BTreeMap::new(),
        }
    }

    /// A pair that is valid: right maps where they are known, damaged ones,
    /// and with each some paths.
    fn pair(&mut self, drawn: &Drawn, random: &mut Random) {
        self.pairs += 1;
        let pair = read_pair(&drawn.source, &drawn.target).expect("a valid pair");
        let (answer, least) = embedding::search(&drawn.source, &drawn.target);
        let mut maps: Vec<Vec<u8>> = drawn.map.iter().cloned().collect();
        if answer == 0 {
            maps.push(least[..drawn.source.len()].to_vec());
        }
        match maps.last() {
            Some(right) => maps.push(damaged_map(right, &pair, random)),
            None => {
                let any = |&children: &u8| match children {
                    1 => PASSED_OVER,
                    _ => random.below(drawn.target.len()) as u8,
                };
                maps.push(drawn.source.iter().map(any).collect());
            }
        }
        for map in maps {
            for _ in 0..PATHS_A_MAP {
                let (path, kind, answer) = path(&drawn.source, random);
                let carried = self.carry(&drawn.source, &drawn.target, &map, &path);
                if carried.refusal == answer {
                    *self.kinds.entry(kind).or_default() += 1;
                }
            }
        }
    }

    /// A pair that may be none, with a map and a path for one that was.
    fn damaged_pair(&mut self, random: &mut Random) {
        self.pairs += 1;
        let mut drawn = pairs::embedded(random, SOURCE_NODES, TARGET_NODES);
        let (path, ..) = path(&drawn.source, random);
        let which = random.below(4);
        if which != 0 {
            drawn.source = generate::any(random);
        }
        if which != 1 {
            drawn.target = generate::any(random);
        }
        let map = drawn.map.unwrap_or_default();
        _ = self.carry(&drawn.source, &drawn.target, &map, &path);
    }

    /// The answer of both, which must be one.
    fn carry(
        &mut self,
        source: &[u8],
        target: &[u8],
        map: &[u8],
        path: &linduvar::Path,
    ) -> linduvar::Carried {
        let rattle = maps::carry(source, target, map, path);
        let rust = by_rust(source, target, map, path);
        if rattle != rust {
            panic!(
                "a difference\n  seed   {}\n  source {source:?}\n  target {target:?}\n  map    {map:?}\n  \
                 path   {path:?}\n  Rattle {rattle:?}\n  Rust   {rust:?}",
                self.seed
            );
        }
        self.count(source, path, &rust);
        rust
    }

    fn count(&mut self, source: &[u8], path: &linduvar::Path, carried: &linduvar::Carried) {
        self.paths += 1;
        let of = match carried.refusal {
            1..=5 if Topology::read(source, SOURCE_NODES).is_ok() => "target",
            1..=5 => "source",
            _ => "",
        };
        *self.answers.entry((carried.refusal, of)).or_default() += 1;

        let length = carried.path.count;
        if carried.refusal == 0 {
            *self.lengths.entry(length).or_default() += 1;
            let longer = length as isize - path.count as isize;
            *self.longer_by.entry(longer).or_default() += 1;
        }
        let noise = path
            .steps
            .iter()
            .skip(path.count)
            .any(|step| step.child != 0);
        let passing = source.contains(&1);
        let lone_leaf = !source.iter().any(|&children| children > 1);
        let met = [
            carried.refusal == 0 && noise,
            carried.refusal != 0 && noise,
            carried.refusal == 13 && path.count > MAX_STEPS,
            carried.refusal == 0 && passing,
            carried.refusal == 0 && lone_leaf && length > 0,
            [13, 14].contains(&carried.refusal) && passing,
            carried.refusal == 0 && wide(&carried.path),
        ];
        for (occasion, met) in OCCASIONS.into_iter().zip(met) {
            *self.kinds.entry(occasion).or_default() += usize::from(met);
        }
    }

    fn print(&self) {
        println!(
            "{} pairs, {} paths; how many met each answer:",
            self.pairs, self.paths
        );
        for ((number, of), times) in &self.answers {
            println!("  {times:7}  {number:2} {of}");
        }
        println!("how often each kind of path and each occasion was met:");
        for (kind, times) in &self.kinds {
            println!("  {times:7}  {kind}");
        }
        println!("how many paths have so many steps on the chip:");
        println!("  {:?}", self.lengths);
        println!("and so many more than in the source, or fewer:");
        println!("  {:?}", self.longer_by);
    }

    fn require_everything(&self) {
        let of_both = (1..=5).flat_map(|number| [(number, "source"), (number, "target")]);
        let of_one = [0, 6, 7, 8, 9, 10, 11, 13, 14, 26].map(|number| (number, ""));
        for answer in of_both.chain(of_one) {
            require("the answer", &self.answers, answer);
        }
        let kinds = PATHS.into_iter().map(|(kind, _)| kind);
        for kind in kinds.chain(OCCASIONS) {
            require("a path", &self.kinds, kind);
        }
        for length in 0..=MOST_STEPS_DOWN {
            require("steps on the chip", &self.lengths, length);
        }
        for longer in -6..=6 {
            require("steps more on the chip", &self.longer_by, longer);
        }
    }
}

/// Whether a step's rank and the leaf's are above 32 bits.
fn wide(path: &linduvar::Path) -> bool {
    const NARROW: u64 = u32::MAX as u64;
    path.leaf_rank > NARROW && path.steps().iter().any(|step| step.rank > NARROW)
}

fn require<K: Ord + fmt::Debug>(what: &str, counts: &BTreeMap<K, usize>, key: K) {
    let met = counts.get(&key).copied().unwrap_or(0);
    assert!(met >= OFTEN_ENOUGH, "{what} {key:?}: only {met} times");
}

/// A path for a source, mostly a right one and half of them with noise behind
/// the steps, and its kind and answer in `PATHS`.
fn path(source: &[u8], random: &mut Random) -> (linduvar::Path, &'static str, u8) {
    let habits = Habits::any(random);
    let (mut path, kind, answer) = any_path(source, &habits, random);
    if random.one_in(2) {
        noise_behind(&mut path, &habits, random);
    }
    (path, kind, answer)
}

/// All that comes back, by the second implementation.
fn by_rust(source: &[u8], target: &[u8], map: &[u8], path: &linduvar::Path) -> linduvar::Carried {
    let whole = Path {
        steps: path.steps().to_vec(),
        leaf_rank: path.leaf_rank,
    };
    match translator::carry(source, target, map, &whole) {
        Ok(carried) => linduvar::Carried {
            path: linduvar::Path::new(&carried.steps, carried.leaf_rank),
            refusal: 0,
        },
        Err(refusal) => linduvar::Carried {
            path: *path,
            refusal,
        },
    }
}
