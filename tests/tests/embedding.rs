//! Puts the same pairs and maps to the Rattle library and to the second
//! implementation. The first difference ends the run.

use linduvar::maps;
use linduvar_tests::embedding::{self, read_pair};
use linduvar_tests::generate::{self, all_trees, chain};
use linduvar_tests::pairs::{self, damaged_map, Drawn};
use linduvar_tests::random::{seeded, Random};
use linduvar_tests::reduced::{Reduced, PASSED_OVER};
use linduvar_tests::topology::{Topology, SOURCE_NODES, TARGET_NODES};
use std::collections::BTreeMap;
use std::fmt;

const SMALL_PAIRS: usize = 30_000;
const LARGE_PAIRS: usize = 3_000;
const DAMAGED_PAIRS: usize = 12_000;

/// Each answer must be met this often.
const OFTEN_ENOUGH: usize = 50;

fn main() {
    seeded(|seed| {
        examples(seed);
        hard_pairs(seed);
        long_strings();
        every_chain(seed);
        every_small_pair(seed);
        random_pairs(seed);
    });
}

/// The paper's pairs, and some worked by hand.
fn examples(seed: u64) {
    let mut comparison = Comparison::new(seed);
    let mut search = |source: &[u8], target: &[u8], answer: u8, least: &[u8]| {
        comparison.small_pair(source, target);
        let mut map = [238; SOURCE_NODES];
        let rattle = maps::search(source, target, &mut map);
        assert_eq!(rattle, answer, "{source:?} in {target:?}");
        assert_eq!(map[..least.len()], *least, "{source:?} in {target:?}");
        let rest = if answer == 0 { 0 } else { 238 };
        assert!(map[least.len()..].iter().all(|&byte| byte == rest));
    };

    // The paper's list.
    search(&[3, 0, 0, 0], &[2, 2, 0, 0, 0], 0, &[0, 2, 3, 4]);
    search(&[2, 2, 0, 0, 0], &[3, 0, 0, 0], 12, &[]);
    search(
        &[2, 0, 2, 0, 0],
        &[2, 2, 0, 0, 2, 0, 0],
        0,
        &[0, 2, 4, 5, 6],
    );
    search(&[2, 3, 0, 0, 0, 0], &[2, 2, 0, 0, 2, 0, 0], 12, &[]);
    search(&[0], &[0], 0, &[0]);
    search(&[0], &[1, 0], 0, &[1]);
    search(&[1, 0], &[1, 1, 0], 0, &[255, 2]);
    search(&[1, 1, 0], &[1, 0], 0, &[255, 255, 1]);

    // The paper's topologies, as sources and as targets.
    for (bytes, refusal) in [
        (vec![], 1),
        (vec![2, 0], 1),
        (vec![0, 0], 2),
        (vec![9], 4),
        (chain(10), 5),
    ] {
        search(&bytes, &[0], refusal, &[]);
        search(&[0], &bytes, refusal, &[]);
    }
    let passed = 255;
    search(
        &chain(9),
        &chain(9),
        0,
        &[[passed; 8].as_slice(), &[8]].concat(),
    );
    search(&[1, 0], &chain(9), 0, &[passed, 8]);

    // The source is read first, each under its own limit.
    search(&[2, 0], &[0, 0], 1, &[]);
    search(&[0, 0], &[2, 0], 2, &[]);
    search(&crowd(33), &[2, 0], 3, &[]);
    search(&[0], &crowd(65), 3, &[]);
    search(&[0], &crowd(64), 0, &[8]);
    search(&[1, 0], &crowd(64), 0, &[passed, 8]);

    // The first choice of images fails: leaf 1 may not take the fork that
    // node 2 needs; and node 1 leaves the larger branch to node 4.
    search(&[2, 0, 2, 0, 0], &[2, 2, 0, 0, 0], 0, &[0, 4, 1, 2, 3]);
    search(
        &[2, 2, 0, 0, 3, 0, 0, 0],
        &[2, 3, 0, 0, 0, 2, 0, 0],
        0,
        &[0, 5, 6, 7, 1, 2, 3, 4],
    );
    // Both children of the root go below one child of the target's root.
    search(&[2, 0, 0], &[1, 2, 0, 0], 0, &[0, 2, 3]);
    search(&[2, 2, 0, 0, 0], &[1, 2, 0, 2, 0, 0], 0, &[0, 3, 4, 5, 2]);
    // Only siblings one above the other would fit.
    search(&[2, 0, 0], &[1, 1, 1, 0], 12, &[]);
    search(&[2, 2, 0, 0, 2, 0, 0], &[2, 2, 0, 2, 0, 0, 0], 12, &[]);
    // Eight children, all of them leaves but the last.
    search(
        &[8, 0, 0, 0, 0, 0, 0, 0, 2, 0, 0],
        &[8, 2, 0, 0, 0, 0, 0, 0, 0, 0, 0],
        0,
        &[0, 4, 5, 6, 7, 8, 9, 10, 1, 2, 3],
    );

    // Nodes that are passed over: all but a leaf, the root alone, those between
    // others. The chip's nodes with one child are not.
    search(&[1, 0], &[0], 0, &[passed, 0]);
    search(&[0], &[2, 2, 0, 0, 0], 0, &[2]);
    search(&[1, 2, 0, 0], &[2, 0, 0], 0, &[passed, 0, 1, 2]);
    search(&[2, 1, 0, 0], &[2, 0, 0], 0, &[0, passed, 1, 2]);
    search(
        &[2, 1, 1, 2, 0, 1, 0, 0],
        &[1, 2, 2, 0, 0, 0],
        0,
        &[0, passed, passed, 2, 3, passed, 4, 5],
    );
    search(&[1, 2, 0, 0], &[1, 1, 0], 12, &[]);

    let mut check = |source: &[u8], target: &[u8], map: &[u8], answer: u8| {
        comparison.check(source, target, map);
        let rattle = maps::check(source, target, map);
        assert_eq!(rattle, answer, "{map:?} of {source:?} in {target:?}");
    };
    // The chip's node 1 has the leaves 2 and 3, node 4 has node 5 with the
    // leaves 6 and 7, and 8 is a leaf.
    let (source, target) = (&[2, 0, 2, 0, 0], &[3, 2, 0, 0, 1, 2, 0, 0, 0]);
    check(source, target, &[0, 8, 1, 2, 3], 0);
    check(source, target, &[0, 2, 4, 7, 6], 0);
    check(source, target, &[0, 2, 5, 6, 7], 0);
    check(source, target, &[0, 8, 1, 2], 6);
    check(source, target, &[0, 8, 1, 2, 3, 0], 6);
    check(source, target, &[], 6);
    check(source, target, &[0, 8, 1, 2, 9], 7);
    check(source, target, &[0, 8, 1, 2, 2], 8);
    check(source, target, &[4, 8, 5, 6, 7], 9);
    check(source, target, &[0, 4, 1, 2, 3], 10);
    check(source, target, &[0, 8, 2, 1, 3], 10);
    check(source, target, &[0, 3, 1, 2, 8], 11);
    // Siblings one above the other: all else is right.
    check(source, target, &[0, 7, 4, 6, 8], 11);
    check(source, target, &[0, 3, 1, 2, 6], 11);
    // Two faults: the lower number, and topologies before all else.
    check(source, target, &[9, 9, 9], 6);
    check(source, target, &[9, 1, 1, 1, 1], 7);
    check(source, target, &[1, 1, 4, 4, 5], 8);
    check(source, target, &[1, 5, 2, 0, 3], 9);
    check(source, target, &[0, 1, 2, 8, 6], 10);

    // A node that is passed over has 255 and no other number, which is tested
    // before all numbers of kept nodes; 255 is no image of a kept node.
    let (source, target) = (&[1, 2, 1, 0, 0], &[2, 0, 2, 0, 0]);
    check(source, target, &[255, 0, 255, 1, 3], 0);
    check(source, target, &[255, 0, 255, 1], 6);
    check(source, target, &[0, 0, 255, 1, 3], 26);
    check(source, target, &[255, 0, 2, 3, 4], 26);
    check(source, target, &[255, 0, 254, 1, 3], 26);
    check(source, target, &[9, 9, 9, 9, 9], 26);
    check(source, target, &[255, 255, 0, 255, 255], 26);
    check(source, target, &[255, 255, 255, 1, 3], 7);
    check(source, target, &[255, 0, 255, 1, 255], 7);
    check(source, target, &[255, 0, 255, 5, 5], 7);
    check(source, target, &[255, 0, 255, 1, 1], 8);
    check(source, target, &[255, 2, 255, 3, 4], 9);
    check(source, target, &[255, 0, 255, 1, 2], 10);
    check(source, &[2, 0, 1, 1, 0], &[255, 0, 255, 1, 4], 0);
    // A lone leaf goes to any leaf, and to nothing else.
    for source in [&[0][..], &[1, 0], &[1, 1, 0]] {
        for (image, answer) in [(0, 10), (1, 0), (2, 10), (3, 0), (4, 0), (5, 7), (255, 7)] {
            let map = [vec![255; source.len() - 1], vec![image]].concat();
            check(source, target, &map, answer);
        }
    }

    check(&[2, 0], &[0, 0], &[], 1);
    check(&[0], &[0, 0], &[], 2);

    // A buffer for the map that is too short, and one that is too long; the
    // trees are read first.
    let mut map = [238; SOURCE_NODES + 8];
    let short = &mut map[..SOURCE_NODES - 1];
    assert_eq!(maps::search(&[0], &[0], short), 255);
    assert_eq!(maps::search(&[0], &[], &mut []), 1);
    assert_eq!(maps::search(&[2, 0, 0], &[1, 0], &mut []), 12);
    assert_eq!(map, [238; SOURCE_NODES + 8]);
    assert_eq!(maps::search(&[0], &[0], &mut map), 0);
    assert_eq!(map[..SOURCE_NODES], [0; SOURCE_NODES]);
    assert_eq!(map[SOURCE_NODES..], [238; 8]);
    println!("examples: as the paper has them");
}

/// A tree of that many nodes: the root has 8 children, the first of these has
/// 8, and so on.
fn crowd(nodes: usize) -> Vec<u8> {
    let mut bytes = Vec::new();
    let mut missing = nodes - 1;
    while missing > 0 {
        let children = missing.min(8);
        bytes.push(children as u8);
        missing -= children;
    }
    bytes.resize(nodes, 0);
    bytes
}

/// Pairs on which trying one list after the other would not end in time.
fn hard_pairs(seed: u64) {
    let mut comparison = Comparison::new(seed);
    // A root with combs below it: a comb's node has a leaf and the next.
    let bunch = |combs: usize, teeth: usize| {
        let comb = [[2, 0].repeat(teeth), vec![0]].concat();
        [vec![combs as u8], comb.repeat(combs)].concat()
    };
    let mut pair = |source: &[u8], target: &[u8], answer: u8| {
        comparison.large_pair(source, target);
        let mut map = [238; SOURCE_NODES];
        let rattle = maps::search(source, target, &mut map);
        assert_eq!(rattle, answer, "{source:?} in {target:?}");
    };
    pair(&bunch(8, 1), &bunch(7, 3), 12);
    pair(&bunch(7, 1), &bunch(7, 3), 0);
    pair(&bunch(6, 2), &bunch(8, 1), 12);
    pair(&bunch(8, 1), &bunch(8, 3), 0);

    // Eight children a node, 32 nodes into up to 64: there is one fan of 8 too
    // few, the second is hidden at the end, or the leaves are too few by one.
    let fan = |children: usize| [vec![children as u8], vec![0; children]].concat();
    let source = [vec![8], fan(8), fan(8), fan(7), vec![0; 5]].concat();
    let few = [vec![8], fan(7).repeat(6), fan(8), chain(6)].concat();
    let hidden = [vec![8], fan(7).repeat(5), fan(8), vec![0, 1], fan(8)].concat();
    let tight = [vec![7], fan(7), fan(8), vec![0; 4], fan(8)].concat();
    pair(&source, &few, 12);
    pair(&source, &hidden, 0);
    pair(&source, &tight, 12);
    println!("hard pairs: answered");
}

/// Strings far beyond any limit still get an answer.
fn long_strings() {
    const LENGTH: usize = 1_000_000;
    let (ones, zeros) = (vec![1; LENGTH], vec![0; LENGTH]);
    let mut map = [238; SOURCE_NODES];
    assert_eq!(maps::search(&ones, &zeros, &mut map), 5);
    assert_eq!(maps::search(&[0], &zeros, &mut map), 2);
    assert_eq!(maps::check(&ones, &[0], &zeros), 5);
    assert_eq!(maps::check(&[0], &ones, &zeros), 5);
    assert_eq!(maps::check(&[0], &[0], &zeros), 6);
    println!("long strings: answered");
}

/// Every chain into every tree of up to 8 nodes: what is left is one leaf, which
/// goes to the first leaf, may go to any other and nowhere else.
fn every_chain(seed: u64) {
    let mut comparison = Comparison::new(seed);
    for target in (1..=8).flat_map(all_trees) {
        for nodes in 1..=9 {
            let source = chain(nodes);
            let (answer, least) = comparison.small_pair(&source, &target);
            let first = target.iter().position(|&children| children == 0);
            let first = first.expect("a leaf") as u8;
            let expected = [vec![PASSED_OVER; nodes - 1], vec![first]].concat();
            assert_eq!((answer, &least[..nodes]), (0, &expected[..]));
            for image in 0..=target.len() {
                let mut map = least[..nodes].to_vec();
                map[nodes - 1] = image as u8;
                comparison.check(&source, &target, &map);
                let passes = target.get(image) == Some(&0);
                assert_eq!(embedding::check(&source, &target, &map) == 0, passes);
                // A node of the chain as if it were kept.
                map[image % nodes] = 0;
                comparison.check(&source, &target, &map);
            }
        }
        comparison.search(&chain(10), &target);
        comparison.check(&chain(10), &target, &[PASSED_OVER; 10]);
    }
    comparison.print("chains");
    comparison.require(&[0, 5], &[0, 5, 7, 10, 26]);
}

/// Every tree of up to 6 nodes into every tree of up to 7, and every list of
/// numbers as a map of the smaller ones.
fn every_small_pair(seed: u64) {
    let mut comparison = Comparison::new(seed);
    for source in (1..=6).flat_map(all_trees) {
        comparison.own_places(&source);
        for target in (1..=7).flat_map(all_trees) {
            comparison.small_pair(&source, &target);
            if source.len() <= 4 && target.len() <= 5 {
                comparison.every_list(&source, &target);
            }
        }
    }
    comparison.print("small pairs");
}

/// Random pairs, small and large, whole and damaged, each with some maps.
fn random_pairs(seed: u64) {
    let mut random = Random::new(seed);
    let mut comparison = Comparison::new(seed);
    for _ in 0..SMALL_PAIRS {
        let drawn = pairs::any(&mut random, 8, 12);
        comparison.small_pair(&drawn.source, &drawn.target);
        comparison.maps(&drawn, &mut random);
    }
    comparison.print("random pairs, up to 8 into 12 nodes");
    for _ in 0..LARGE_PAIRS {
        let drawn = pairs::any(&mut random, SOURCE_NODES, TARGET_NODES);
        comparison.large_pair(&drawn.source, &drawn.target);
        comparison.maps(&drawn, &mut random);
    }
    comparison.print("and large ones, up to 32 into 64 nodes");
    for _ in 0..DAMAGED_PAIRS {
        let mut drawn = pairs::any(&mut random, SOURCE_NODES, TARGET_NODES);
        let which = random.below(4);
        if which != 0 {
            drawn.source = generate::any(&mut random);
        }
        if which != 1 {
            drawn.target = generate::any(&mut random);
        }
        comparison.search(&drawn.source, &drawn.target);
        comparison.maps(&drawn, &mut random);
    }
    comparison.print("and damaged ones");
    comparison.require(&SEARCH_ANSWERS, &CHECK_ANSWERS);
}

/// Asks both sides, and counts how often each answer was met.
struct Comparison {
    seed: u64,
    pairs: usize,
    maps: usize,
    check_answers: Answers,
    search_answers: Answers,
}

/// How often each answer was met.
type Answers = BTreeMap<u8, usize>;

const CHECK_ANSWERS: [u8; 13] = [0, 1, 2, 3, 4, 5, 6, 7, 8, 9, 10, 11, 26];
const SEARCH_ANSWERS: [u8; 7] = [0, 1, 2, 3, 4, 5, 12];

impl Comparison {
    fn new(seed: u64) -> Comparison {
        Comparison {
            seed,
            pairs: 0,
            maps: 0,
            check_answers: Answers::new(),
            search_answers: Answers::new(),
        }
    }

    fn agree<T: PartialEq + fmt::Debug>(
        &self,
        question: fmt::Arguments,
        source: &[u8],
        target: &[u8],
        rattle: T,
        rust: T,
    ) {
        if rattle != rust {
            panic!(
                "a difference: {question}\n  seed   {}\n  source {source:?}\n  target {target:?}\n  \
                 Rattle {rattle:?}\n  Rust   {rust:?}",
                self.seed
            );
        }
    }

    fn check(&mut self, source: &[u8], target: &[u8], map: &[u8]) {
        let rattle = maps::check(source, target, map);
        let rust = embedding::check(source, target, map);
        self.agree(
            format_args!("check of {map:?}"),
            source,
            target,
            rattle,
            rust,
        );
        *self.check_answers.entry(rust).or_default() += 1;
        self.maps += 1;
    }

    /// The search's answer and its map, which is not checked.
    fn search(&mut self, source: &[u8], target: &[u8]) -> (u8, [u8; SOURCE_NODES]) {
        // No image has this number: it stays where a search is refused.
        let mut map = [238; SOURCE_NODES];
        let rattle = maps::search(source, target, &mut map);
        let (rust, least) = embedding::search(source, target);
        let written = if rust == 0 {
            least
        } else {
            [238; SOURCE_NODES]
        };
        self.agree(format_args!("search"), source, target, rattle, rust);
        self.agree(format_args!("least map"), source, target, map, written);
        *self.search_answers.entry(rust).or_default() += 1;
        self.pairs += 1;
        (rust, least)
    }

    /// A pair small enough to try every list on it; its answer and its map.
    fn small_pair(&mut self, source: &[u8], target: &[u8]) -> (u8, [u8; SOURCE_NODES]) {
        let (answer, least) = self.large_pair(source, target);
        if let Ok(pair) = read_pair(source, target) {
            let tried = match pair.least_map_by_trying() {
                Ok(map) => (0, map),
                Err(refusal) => (refusal as u8, vec![0; source.len()]),
            };
            let placed = (answer, least[..source.len()].to_vec());
            assert_eq!(tried, placed, "{source:?} in {target:?}");
        }
        (answer, least)
    }

    /// A drawing in its own reduced drawing: a kept node goes to its place there.
    fn own_places(&mut self, source: &[u8]) {
        let drawing = Topology::read(source, SOURCE_NODES).expect("a valid tree");
        let reduced = Reduced::new(&drawing);
        let (answer, least) = self.search(source, &reduced.tree.bytes());
        let places: Vec<u8> = (0..reduced.kept.len() as u8).collect();
        let expected = (0, &reduced.spread(&drawing, &places)[..]);
        assert_eq!((answer, &least[..source.len()]), expected, "{source:?}");
    }

    /// The search's answer and its map, which must pass the check.
    fn large_pair(&mut self, source: &[u8], target: &[u8]) -> (u8, [u8; SOURCE_NODES]) {
        let (answer, least) = self.search(source, target);
        if answer == 0 {
            let map = &least[..source.len()];
            self.check(source, target, map);
            assert_eq!(embedding::check(source, target, map), 0);
        }
        (answer, least)
    }

    /// Every list as long as the source, of numbers up to one past the end and
    /// of 255.
    fn every_list(&mut self, source: &[u8], target: &[u8]) {
        let numbers: Vec<u8> = (0..=target.len() as u8).chain([PASSED_OVER]).collect();
        for code in 0..numbers.len().pow(source.len() as u32) {
            let mut rest = code;
            let map: Vec<u8> = source
                .iter()
                .map(|_| {
                    let image = numbers[rest % numbers.len()];
                    rest /= numbers.len();
                    image
                })
                .collect();
            self.check(source, target, &map);
        }
    }

    /// Right maps where one is known, damaged ones, and lists with no plan.
    fn maps(&mut self, drawn: &Drawn, random: &mut Random) {
        let Drawn {
            source,
            target,
            map,
        } = drawn;
        match (map, read_pair(source, target)) {
            (Some(right), Ok(pair)) if right.len() == source.len() => {
                self.check(source, target, right);
                for _ in 0..4 {
                    let mut damaged = damaged_map(right, &pair, random);
                    if random.one_in(4) && damaged.len() == right.len() {
                        damaged = damaged_map(&damaged, &pair, random);
                    }
                    self.check(source, target, &damaged);
                }
            }
            _ => {
                let length = match random.below(4) {
                    0 => random.within(0..=SOURCE_NODES + 2),
                    _ => source.len(),
                };
                let marked = !random.one_in(4);
                let list: Vec<u8> = (0..length)
                    .map(|node| match source.get(node) {
                        Some(1) if marked => PASSED_OVER,
                        _ => random.within(0..=target.len()) as u8,
                    })
                    .collect();
                self.check(source, target, &list);
            }
        }
    }

    fn print(&self, what: &str) {
        let line = |answers: &Answers| {
            let counts = answers.iter();
            let counts: Vec<String> = counts
                .map(|(answer, met)| format!("{answer}: {met}"))
                .collect();
            counts.join("  ")
        };
        println!(
            "{what}: {} pairs, {} maps; how many met each answer:",
            self.pairs, self.maps
        );
        println!("  search  {}", line(&self.search_answers));
        println!("  check   {}", line(&self.check_answers));
    }

    fn require(&self, search: &[u8], check: &[u8]) {
        for (function, answers, counts) in [
            ("search", search, &self.search_answers),
            ("check", check, &self.check_answers),
        ] {
            for answer in answers {
                let met = counts.get(answer).copied().unwrap_or(0);
                assert!(
                    met >= OFTEN_ENOUGH,
                    "the answer {answer} of {function} was met only {met} times"
                );
            }
        }
    }
}
