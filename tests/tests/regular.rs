//! Puts the same drawings and numbers of children to the Rattle library and to
//! the second implementation, and asks the searches of both about complete trees
//! of that depth and of every smaller one. The first difference ends the run.

use linduvar::maps;
use linduvar_tests::embedding::Pair;
use linduvar_tests::generate::{self, all_trees, chain, deepest, steep};
use linduvar_tests::pairs::drawing;
use linduvar_tests::random::{seeded, Random};
use linduvar_tests::reduced::PASSED_OVER;
use linduvar_tests::regular::{complete, least_depth, size, CHILDREN, NO_SUCH_CHIP};
use linduvar_tests::topology::{Topology, SOURCE_NODES, TARGET_NODES};
use std::collections::BTreeMap;

const RANDOM_DRAWINGS: usize = 60_000;
const SEARCHED_DRAWINGS: usize = 3_000;
const DAMAGED_DRAWINGS: usize = 60_000;

/// Every drawing of so many nodes is tried, and on those of so many every list.
const SMALL: usize = 10;
const TINY: usize = 6;

/// Every list is tried in chips of at most so many nodes.
const TINY_CHIP: usize = 15;

/// The second implementation's search numbers nodes by bytes, and 255 is none.
const MOST_PLACES: usize = PASSED_OVER as usize;

/// The greatest depth that any drawing needs, for each d, as a table of how few
/// nodes within so many steps need each depth gave it. That table is not kept
/// here; a drawing that needs more would be seen.
const DEEPEST: [usize; 7] = [11, 10, 9, 9, 9, 9, 8];

/// Each answer must be met this often.
const OFTEN_ENOUGH: usize = 10;

/// Numbers of children that no chip has.
const NO_CHIPS: [usize; 8] = [0, 1, 9, 10, 27, 255, 258, usize::MAX];

fn main() {
    seeded(|seed| {
        examples(seed);
        long_strings(seed);
        every_small_drawing(seed);
        random_drawings(seed);
    });
}

/// The paper's words, and some worked by hand.
fn examples(seed: u64) {
    let mut comparison = Comparison::new(seed);
    let mut depths = |source: &[u8], expected: [usize; 7]| {
        for (d, depth) in CHILDREN.zip(expected) {
            assert_eq!(comparison.depth(source, d), Ok(depth), "{source:?}, {d}");
            comparison.search(source, d, depth);
        }
    };
    depths(&[3, 0, 0, 0], [2, 1, 1, 1, 1, 1, 1]);
    // A lone leaf, and what is passed over.
    for nodes in 1..=9 {
        depths(&chain(nodes), [0; 7]);
    }
    depths(&[1, 3, 0, 1, 0, 0], [2, 1, 1, 1, 1, 1, 1]);
    depths(&[2, 0, 0], [1; 7]);
    depths(&[8, 0, 0, 0, 0, 0, 0, 0, 0], [3, 2, 2, 2, 2, 2, 1]);
    // A fork below a fork takes the whole branch of one chip node, however many
    // children that has.
    depths(&[2, 2, 0, 0, 0], [2; 7]);
    depths(&[2, 2, 0, 0, 2, 0, 0], [2; 7]);
    depths(&[3, 2, 0, 0, 0, 0], [2; 7]);
    depths(&[3, 2, 0, 0, 2, 0, 0, 0], [3, 2, 2, 2, 2, 2, 2]);
    // Eight steps down with a leaf beside each.
    depths(&[[2, 0].repeat(8), vec![0]].concat(), [8; 7]);
    depths(&deepest(), [11, 9, 9, 8, 8, 8, 8]);

    // The drawing is tested first, then d.
    let mut refused = |source: &[u8], d: usize, refusal: u8| {
        assert_eq!(comparison.depth(source, d), Err(refusal), "{source:?}, {d}");
    };
    for d in NO_CHIPS {
        refused(&[3, 0, 0, 0], d, NO_SUCH_CHIP);
        refused(&[0], d, NO_SUCH_CHIP);
    }
    let crowd = [vec![8; 4], vec![0; 29]].concat();
    for (source, refusal) in [
        (vec![], 1),
        (vec![2, 0], 1),
        (vec![0, 0], 2),
        (crowd, 3),
        (vec![9], 4),
        (chain(10), 5),
    ] {
        for d in CHILDREN.chain(NO_CHIPS) {
            refused(&source, d, refusal);
        }
    }
    println!("examples: as the paper has them");
}

/// Strings far beyond any limit still get an answer.
fn long_strings(seed: u64) {
    const LENGTH: usize = 1_000_000;
    let mut comparison = Comparison::new(seed);
    for (byte, refusal) in [(0, 2), (1, 5), (2, 5), (8, 5), (9, 4)] {
        let answer = comparison.depth(&vec![byte; LENGTH], 2);
        assert_eq!(answer, Err(refusal), "{LENGTH} bytes {byte}");
    }
    println!("long strings: answered");
}

/// Every drawing of up to 10 nodes, valid or not, at every d.
fn every_small_drawing(seed: u64) {
    let mut comparison = Comparison::new(seed);
    for source in (1..=SMALL).flat_map(all_trees) {
        for d in CHILDREN {
            if let Ok(depth) = comparison.depth(&source, d) {
                comparison.search(&source, d, depth);
                if source.len() <= TINY {
                    comparison.try_every_list(&source, d, depth);
                }
            }
        }
        for d in NO_CHIPS {
            _ = comparison.depth(&source, d);
        }
    }
    comparison.print("every drawing of up to 10 nodes");
    comparison.require_searches();
    assert!(comparison.tried >= OFTEN_ENOUGH, "lists were not tried");
}

/// Random drawings, shallow and steep, and damaged ones.
fn random_drawings(seed: u64) {
    let mut random = Random::new(seed);
    let mut comparison = Comparison::new(seed);
    for number in 0..RANDOM_DRAWINGS {
        let source = any_drawing(&mut random);
        for d in CHILDREN {
            let depth = comparison.depth(&source, d).expect("a drawing and a chip");
            if number < SEARCHED_DRAWINGS {
                comparison.search(&source, d, depth);
            }
        }
        _ = comparison.depth(&source, random.pick(&NO_CHIPS));
    }
    comparison.print("random drawings, up to 32 nodes");
    for _ in 0..DAMAGED_DRAWINGS {
        let source = match random.below(4) {
            0 => generate::any(&mut random),
            _ => generate::damaged(&mut random, any_drawing),
        };
        let any = random.number() as usize;
        for d in [random.within(CHILDREN), random.pick(&NO_CHIPS), any] {
            _ = comparison.depth(&source, d);
        }
    }
    comparison.print("and damaged ones");
    comparison.require_everything();
}

fn any_drawing(random: &mut Random) -> Vec<u8> {
    match random.below(2) {
        0 => drawing(random, SOURCE_NODES),
        _ => steep(random, SOURCE_NODES),
    }
}

/// Asks both sides, and counts how often each answer was met.
struct Comparison {
    seed: u64,
    calls: usize,
    refusals: BTreeMap<u8, usize>,
    /// By d and by depth.
    depths: BTreeMap<(usize, usize), usize>,
    /// Complete trees with a map of the drawing, and without one, by the searches
    /// of both.
    maps: usize,
    no_maps: usize,
    /// By the second implementation's alone, in trees beyond a chip's limit.
    beyond: usize,
    /// By trying every list.
    tried: usize,
}

impl Comparison {
    fn new(seed: u64) -> Comparison {
        Comparison {
            seed,
            calls: 0,
            refusals: BTreeMap::new(),
            depths: BTreeMap::new(),
            maps: 0,
            no_maps: 0,
            beyond: 0,
            tried: 0,
        }
    }

    /// The answer of both.
    fn depth(&mut self, source: &[u8], d: usize) -> Result<usize, u8> {
        // No depth has this number: it stays where the call is refused.
        const UNTOUCHED: usize = 238;
        let mut depth = UNTOUCHED;
        let rattle = match maps::least_depth(source, d, &mut depth) {
            0 => Ok(depth),
            refusal => {
                assert_eq!(depth, UNTOUCHED, "{source:?}, {d}");
                Err(refusal)
            }
        };
        let rust = least_depth(source, d);
        if rattle != rust {
            panic!(
                "a difference: least depth\n  seed   {}\n  source {source:?}\n  d      {d}\n  \
                 Rattle {rattle:?}\n  Rust   {rust:?}",
                self.seed
            );
        }
        self.calls += 1;
        match rust {
            Ok(depth) => *self.depths.entry((d, depth)).or_default() += 1,
            Err(refusal) => *self.refusals.entry(refusal).or_default() += 1,
        }
        rust
    }

    /// What the searches answer about the complete tree of that depth, and of
    /// each smaller one, as far as the trees are not too large for them.
    fn search(&mut self, source: &[u8], d: usize, least: usize) {
        for depth in 0..=least {
            let (nodes, _) = size(d, depth);
            if nodes > MOST_PLACES {
                return;
            }
            let pair = pair(source, d, depth);
            let found = pair.least_map().is_ok();
            assert_eq!(found, depth == least, "{source:?}, {d}, depth {depth}");
            if nodes > TARGET_NODES {
                self.beyond += 1;
                continue;
            }
            let mut map = [0; SOURCE_NODES];
            let answer = maps::search(source, &complete(d, depth), &mut map);
            let expected = if depth == least { 0 } else { 12 };
            assert_eq!(answer, expected, "{source:?}, {d}, depth {depth}");
            match answer {
                0 => self.maps += 1,
                _ => self.no_maps += 1,
            }
        }
    }

    /// The same by trying every list that the rules leave open.
    fn try_every_list(&mut self, source: &[u8], d: usize, least: usize) {
        for depth in 0..=least {
            if size(d, depth).0 > TINY_CHIP {
                return;
            }
            let found = pair(source, d, depth).least_map_by_trying().is_ok();
            assert_eq!(found, depth == least, "{source:?}, {d}, depth {depth}");
            self.tried += 1;
        }
    }

    fn print(&self, what: &str) {
        println!("{what}: {} calls; how many met each answer:", self.calls);
        let refusals = self.refusals.iter();
        let refusals: Vec<String> = refusals
            .map(|(refusal, met)| format!("{refusal}: {met}"))
            .collect();
        println!("  refusal {}", refusals.join("  "));
        for d in CHILDREN {
            let depths = self.depths.range((d, 0)..=(d, usize::MAX));
            let depths: Vec<String> = depths
                .map(|((_, depth), met)| format!("{depth}: {met}"))
                .collect();
            println!("  d {d}, depth {}", depths.join("  "));
        }
        println!(
            "  complete trees: {} with a map and {} without; {} beyond a chip's limit; {} with every list tried",
            self.maps, self.no_maps, self.beyond, self.tried
        );
    }

    fn require_everything(&self) {
        for refusal in [1, 2, 3, 4, 5, NO_SUCH_CHIP] {
            let met = self.refusals.get(&refusal).copied().unwrap_or(0);
            assert!(met >= OFTEN_ENOUGH, "{refusal} was met only {met} times");
        }
        for (d, deepest) in CHILDREN.zip(DEEPEST) {
            for depth in 0..=deepest {
                let met = self.depths.get(&(d, depth)).copied().unwrap_or(0);
                assert!(met >= OFTEN_ENOUGH, "d {d}, depth {depth}: only {met}");
            }
            let deeper = self.depths.range((d, deepest + 1)..(d + 1, 0)).next();
            assert_eq!(deeper, None, "deeper than any drawing needs");
        }
        self.require_searches();
    }

    fn require_searches(&self) {
        for met in [self.maps, self.no_maps, self.beyond] {
            assert!(met >= OFTEN_ENOUGH, "only {met} complete trees of a kind");
        }
    }
}

/// A drawing, and the complete tree of that depth.
fn pair(source: &[u8], d: usize, depth: usize) -> Pair {
    let read = |bytes: &[u8], nodes: usize| match Topology::read(bytes, nodes) {
        Ok(topology) => topology,
        Err(refusal) => panic!("{bytes:?}: {refusal:?}"),
    };
    Pair {
        source: read(source, SOURCE_NODES),
        target: read(&complete(d, depth), MOST_PLACES),
    }
}
