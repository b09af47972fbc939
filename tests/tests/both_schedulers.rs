//! A drawing's tree and a chip's tree behind a map, both with the drawing's
//! disciplines: the library's two beside the second implementation's two. After
//! every call all answers and all that is kept are compared. The first
//! difference ends the run.

use linduvar::chip::{self, Behind};
use linduvar::tree;
use linduvar_tests::embedding::read_pair;
use linduvar_tests::generate;
use linduvar_tests::kinds::Kinds;
use linduvar_tests::pairs::{self, damaged_map, Drawn};
use linduvar_tests::plain;
use linduvar_tests::plain_tree;
use linduvar_tests::queue_tree::{Step, MOST_PACKETS};
use linduvar_tests::random::{seeded, Random};
use linduvar_tests::requests::{
    any_push, passed_over, refused, Answer, Request, PASSED_OVER_KINDS,
};
use linduvar_tests::rules::{any_rules, break_rules, keep_anything, right_rules, RULE_FAULTS};
use linduvar_tests::scheduler::{Pair, Rule, Rules, Tree, ARRIVAL, STRICT, WEIGHTED};
use linduvar_tests::states::{any_topology, damage, dressed, Habits, DAMAGES, DRESSES, LIMITS};
use linduvar_tests::topology::{Topology, SOURCE_NODES, TARGET_NODES};
use std::fmt::Debug;

const OPENINGS: usize = 8_000;
const LISTS: usize = 900;
const CALLS_A_LIST: usize = 50;
const LONG_LISTS: usize = 12;
const DAMAGED_TREES: usize = 2_000;
const DAMAGES_A_TREE: usize = 20;

/// Each answer of each call and each occasion must be met this often, and each
/// damage of a state.
const OFTEN_ENOUGH: usize = 20;
const DAMAGED_ENOUGH: usize = 5;

fn main() {
    seeded(|seed| {
        let mut kinds = Kinds::default();
        let mut random = Random::new(seed);
        examples(&mut kinds);
        openings(&mut kinds, &mut random);
        lists(&mut kinds, &mut random);
        damaged_chips(&mut kinds, &mut random);
        println!("how often each thing was met:");
        kinds.print();
        require_everything(&kinds);
    });
}

fn rule((discipline, weight): (u8, u8)) -> Rule {
    Rule { discipline, weight }
}

/// Worked by hand.
fn examples(kinds: &mut Kinds) {
    // The paper's pair, its root weighted. Node 1 of the chip has no rule of its
    // own and repeats the root's ranks.
    let mut rules = [rule((ARRIVAL, 1)); TARGET_NODES];
    rules[0] = rule((WEIGHTED, 0));
    rules[3] = rule((ARRIVAL, 4));
    let mut trees = Trees::open(&[3, 0, 0, 0], &[2, 2, 0, 0, 0], 5, &rules);
    assert_eq!(trees.map, [0, 2, 3, 4]);
    for (leaf, packet) in [(1, 11), (3, 31), (1, 12), (3, 32), (2, 21)] {
        let held = trees.rust_source.held() as u32 + 1;
        trees.answers(&to_leaf(leaf, 10, packet), (0, held), kinds);
    }
    trees.answers(&to_leaf(4, 10, 41), (25, 0), kinds);
    trees.answers(&to_leaf(3, 10, 33), (15, 1), kinds);
    for (packet, time) in [(11, 0), (31, 0), (21, 0), (32, 640), (12, 2560)] {
        trees.answers(&Request::Pop, (0, packet), kinds);
        assert_eq!(trees.chip.disciplines.virtual_time[0], time);
    }
    assert_eq!(trees.chip.disciplines.finish[..4], [0, 5120, 2560, 1280]);

    // A weighted node that is another on the chip: its time is what was popped
    // at its image.
    let (source, target) = ([2, 0, 2, 0, 0], [2, 2, 0, 0, 2, 0, 0]);
    let mut rules = [rule((STRICT, 0)); TARGET_NODES];
    rules[2] = rule((WEIGHTED, 0));
    rules[3] = rule((ARRIVAL, 2));
    rules[4] = rule((ARRIVAL, 1));
    let mut trees = Trees::open(&source, &target, 3, &rules);
    assert_eq!(trees.map, [0, 2, 4, 5, 6]);
    let path = |steps: &[(u8, u64)], packet: u32| {
        let steps: Vec<Step> = steps
            .iter()
            .map(|&(child, rank)| Step { child, rank })
            .collect();
        let path = linduvar::Path::new(&steps, 0);
        Request::Push { path, packet }
    };
    trees.answers(&path(&[(2, 9), (1, 700)], 1), (0, 1), kinds);
    trees.answers(&Request::Pop, (0, 1), kinds);
    assert_eq!(trees.chip.disciplines.virtual_time[..5], [0, 0, 700, 0, 0]);
    trees.answers(&to_leaf(3, 1, 2), (0, 1), kinds);
    assert_eq!(trees.chip.disciplines.finish[..5], [0, 0, 0, 828, 0]);
    trees.answers(&path(&[(2, 1)], 3), (14, 0), kinds);
    trees.answers(&path(&[(3, 1)], 3), (13, 0), kinds);
    // The largest finish there, from a time by path, and one above it.
    for (over, answer) in [(0, (0, 1)), (1, (23, 0))] {
        let mut trees = Trees::open(&source, &target, 1, &rules);
        let start = u64::MAX - 256 + over;
        trees.answers(&path(&[(2, 9), (2, start)], 1), (0, 1), kinds);
        trees.answers(&Request::Pop, (0, 1), kinds);
        trees.answers(&to_leaf(4, 1, 2), answer, kinds);
    }

    // The root and node 2 are passed over: they give rank 0, keep nothing and
    // leave what stands in their places. Node 2 has a weight under node 1.
    let mut rules = [rule((WEIGHTED, 1)); TARGET_NODES];
    rules[2].weight = 2;
    rules[3].discipline = STRICT;
    rules[4].discipline = ARRIVAL;
    let mut trees = Trees::open(&[1, 2, 1, 0, 0], &[2, 0, 0], 4, &rules);
    assert_eq!(trees.map, [255, 0, 255, 1, 2]);
    trees.source.disciplines.virtual_time[..3].copy_from_slice(&[77, 0, 88]);
    trees.source.disciplines.finish[..4].copy_from_slice(&[9, u64::MAX, 0, u64::MAX]);
    trees.chip.disciplines = trees.source.disciplines;
    trees.read_again();
    for (leaf, packet, held) in [(3, 31, 1), (4, 41, 2), (3, 32, 3)] {
        trees.answers(&to_leaf(leaf, 10, packet), (0, held), kinds);
    }
    trees.answers(&path(&[(1, 500), (2, 900)], 42), (0, 4), kinds);
    for (packet, time) in [(31, 0), (41, 0), (42, 900), (32, 1280)] {
        trees.answers(&Request::Pop, (0, packet), kinds);
        assert_eq!(trees.chip.disciplines.virtual_time[..3], [77, time, 88]);
    }
    let finishes = [9, u64::MAX, 2560, u64::MAX, 2560];
    assert_eq!(trees.chip.disciplines.finish[..5], finishes);

    // 24 is about the rules as given.
    rules[3].weight = 0;
    let opened = chip::open_both(&[1, 2, 1, 0, 0], &[2, 0, 0], 4, &rules);
    assert_eq!(opened.refusal, 24);
    println!("examples: as worked by hand");
}

fn to_leaf(leaf: usize, length: u16, packet: u32) -> Request {
    Request::PushToLeaf {
        leaf,
        class: 0,
        length,
        packet,
    }
}

/// Pairs, limits and rules, right and at fault.
fn openings(kinds: &mut Kinds, random: &mut Random) {
    for _ in 0..OPENINGS {
        let mut drawn = pairs::any(random, SOURCE_NODES, TARGET_NODES);
        match random.below(6) {
            0 => drawn.source = generate::any(random),
            1 => drawn.target = generate::any(random),
            _ => {}
        }
        let any = random.within(1..=256);
        let limit = random.pick(&[0, 257, usize::MAX, any, any, any, any]);
        let (rules, _) = any_rules(&drawn.source, random);
        let rattle = chip::open_both(&drawn.source, &drawn.target, limit, &rules);
        let opened = Pair::open(&drawn.source, &drawn.target, limit, &rules);
        let rust = plain_tree::pair_opened(&opened);
        let question = || format!("opening {:?} in {:?}", drawn.source, drawn.target);
        agree(question, rattle.refusal, rust.refusal);
        agree(question, rattle.map, rust.map);
        agree(question, rattle.source, rust.source);
        agree(question, rattle.chip, rust.chip);
        let of = match rust.refusal {
            1..=5 if Topology::read(&drawn.source, SOURCE_NODES).is_ok() => " of the target",
            1..=5 => " of the source",
            _ => "",
        };
        kinds.meet(&format!("open: {}{of}", rust.refusal));
        let alone = chip::open(&drawn.source, &drawn.target, limit, &rules);
        let tree = Tree::open_chip(&drawn.source, &drawn.target, limit, &rules);
        let written = plain_tree::opened(&tree);
        agree(question, alone.refusal, written.refusal);
        agree(question, alone.tree, written.tree);
        kinds.meet(&format!("open a chip's: {}", written.refusal));
        if opened.is_err() {
            let behind = Behind {
                source: &[0],
                map: &[0],
            };
            ask_chip(behind, &rattle.chip, &Request::Pop, kinds);
        }
    }
}

/// Lists of calls that mix both kinds of push, each call made on all four.
fn lists(kinds: &mut Kinds, random: &mut Random) {
    let mut shared = 0;
    for list in 0..LISTS + LONG_LISTS {
        let (limit, calls) = match list {
            0..LISTS => (random.pick(&LIMITS), CALLS_A_LIST),
            _ => (MOST_PACKETS, 1_000),
        };
        let (drawn, rules) = any_drawn(random);
        let mut trees = Trees::open(&drawn.source, &drawn.target, limit, &rules);
        if random.one_in(2) {
            // Another map than the least does as well.
            trees = trees.behind(drawn.map.expect("a pair made from a map"));
        }
        if list < LISTS && random.one_in(3) {
            trees.keep_anything(random);
        }
        shared += usize::from(pairs::shares_a_node(&drawn.target, &trees.map));
        trees.calls(calls, kinds, random);
    }
    assert!(shared >= OFTEN_ENOUGH, "{shared} lists share a chip node");
    println!("lists: in {shared} of them branches share a chip node");
}

/// A pair with a map, and right rules for its source.
fn any_drawn(random: &mut Random) -> (Drawn, Rules) {
    let nodes = random.pick(&[4, 8, SOURCE_NODES]);
    let drawn = pairs::embedded(random, nodes, TARGET_NODES);
    let drawing = Topology::read(&drawn.source, SOURCE_NODES).expect("a valid tree");
    let rules = right_rules(&drawing, random);
    (drawn, rules)
}

/// Chips with any part damaged, or several at once: the source's bytes, the map,
/// the state, the rules.
fn damaged_chips(kinds: &mut Kinds, random: &mut Random) {
    for _ in 0..DAMAGED_TREES {
        let (drawn, rules) = any_drawn(random);
        let limit = random.pick(&LIMITS);
        let mut trees = Trees::open(&drawn.source, &drawn.target, limit, &rules);
        trees.keep_anything(random);
        trees.calls(random.pick(&[0, 20, 40]), kinds, random);
        for _ in 0..DAMAGES_A_TREE {
            damaged_chip(&trees, kinds, random);
        }
    }
}

fn damaged_chip(trees: &Trees, kinds: &mut Kinds, random: &mut Random) {
    let habits = Habits::any(random);
    let request = match random.one_in(3) {
        true => Request::Pop,
        false => any_push(&trees.drawing, &habits, random).0,
    };
    let damaged = Damaged::any(trees, kinds, random);
    let behind = Behind {
        source: &damaged.source,
        map: &damaged.map,
    };
    let (number, _) = ask_chip(behind, &damaged.chip, &request, kinds);
    if damaged.faults.len() > 1 {
        kinds.meet(&format!("{}: {number}", damaged.faults.join(", ")));
    }
}

/// What is handed in to a call on a chip, and which parts were damaged.
struct Damaged {
    source: Vec<u8>,
    map: Vec<u8>,
    chip: linduvar::Tree,
    faults: Vec<&'static str>,
}

impl Damaged {
    fn any(trees: &Trees, kinds: &mut Kinds, random: &mut Random) -> Damaged {
        let mut damaged = Damaged {
            source: trees.drawing.clone(),
            map: trees.map.clone(),
            chip: trees.chip,
            faults: Vec::new(),
        };
        let dress = random.pick(&DRESSES);
        damaged.chip.state = dressed(&trees.rust_chip.state(), dress, random);
        let often = random.pick(&[2, 4, 8]);
        if random.one_in(2 * often) {
            damaged.source = generate::any(random);
            damaged.faults.push("source");
        }
        if random.one_in(often) {
            damaged.damage_chip(&trees.drawing, kinds, random);
        }
        if random.one_in(often) {
            let pair = read_pair(&trees.drawing, &trees.target).expect("a valid pair");
            damaged.map = damaged_map(&trees.map, &pair, random);
            damaged.faults.push("map");
        }
        damaged
    }

    /// Breaks a clause of the state or a rule, or puts another tree in its
    /// place.
    fn damage_chip(&mut self, drawing: &[u8], kinds: &mut Kinds, random: &mut Random) {
        let drawing = Topology::read(drawing, SOURCE_NODES).expect("a valid tree");
        let kind = match random.below(4) {
            0 => random.pick(&RULE_FAULTS),
            1 => "another tree",
            _ => random.pick(&DAMAGES),
        };
        let done = match kind {
            "another tree" => {
                let other = tree::open(&any_topology(random), 3, &no_rules());
                self.chip.state = other.tree.state;
                Some(())
            }
            kind if RULE_FAULTS.contains(&kind) => {
                break_rules(&mut self.chip.disciplines.rules, &drawing, kind, random)
            }
            kind => damage(&mut self.chip.state, kind, random),
        };
        if done.is_some() {
            kinds.meet(kind);
            self.faults.push("state");
        }
    }
}

fn no_rules() -> Rules {
    [rule((ARRIVAL, 0)); TARGET_NODES]
}

/// A call on a chip's tree, which may be none, on both sides; its answer. Counts
/// are asked too.
fn ask_chip(behind: Behind, chip: &linduvar::Tree, request: &Request, kinds: &mut Kinds) -> Answer {
    let Behind { source, map } = behind;
    let rattle = request.by_rattle_chip(behind, chip);
    let answer = (rattle.refusal, rattle.value);
    let question = || {
        format!(
            "{request:?} behind {behind:?} on {:?}",
            plain::read(&chip.state)
        )
    };
    let mut after = plain_tree::rewritten(chip);
    let rust = match plain_tree::read_chip(chip, source, map) {
        Err(refusal) => refused(refusal),
        Ok(mut tree) => {
            let answer = request.by_rust(&mut tree);
            agree(
                question,
                plain::read(&rattle.tree.state),
                Some(tree.state()),
            );
            after.disciplines = tree.disciplines();
            answer
        }
    };
    agree(question, answer, rust);
    agree(question, rattle.tree.disciplines, after.disciplines);
    if answer.0 != 0 {
        if answer.0 == 15 {
            after.state.refused = answer.1;
        }
        agree(question, rattle.tree == after, true);
    }
    kinds.meet(&format!("chip, {}: {}", request.name(), answer.0));
    ask_counts(behind, chip, kinds);
    answer
}

fn ask_counts(behind: Behind, chip: &linduvar::Tree, kinds: &mut Kinds) {
    let (held, refusals) = match plain_tree::chip_counts(chip, behind.source) {
        Ok((held, refusals)) => ((0, held as u32), (0, refusals)),
        Err(refusal) => (refused(refusal), refused(refusal)),
    };
    for (call, rattle, rust) in [
        ("held", behind.held(chip), held),
        ("refusals", behind.refusals(chip), refusals),
    ] {
        agree(|| format!("{call} behind {behind:?}"), of(rattle), rust);
        kinds.meet(&format!("chip, {call}: {}", rust.0));
    }
}

/// Two trees of the library and two of the second implementation.
struct Trees {
    drawing: Vec<u8>,
    target: Vec<u8>,
    map: Vec<u8>,
    source: linduvar::Tree,
    chip: linduvar::Tree,
    rust_source: Tree,
    rust_chip: Tree,
}

impl Trees {
    /// Opens both with the least map.
    fn open(source: &[u8], target: &[u8], limit: usize, rules: &Rules) -> Trees {
        let opened = chip::open_both(source, target, limit, rules);
        let pair = Pair::open(source, target, limit, rules);
        let pair = pair.expect("a pair with a map, and right rules");
        assert_eq!(opened.refusal, 0);
        let trees = Trees {
            drawing: source.to_vec(),
            target: target.to_vec(),
            map: opened.map[..source.len()].to_vec(),
            source: opened.source,
            chip: opened.chip,
            rust_source: pair.source,
            rust_chip: pair.chip,
        };
        trees.compare("an opening");
        trees
    }

    /// The same trees and another map.
    fn behind(mut self, map: Vec<u8>) -> Trees {
        self.map = map;
        self.read_again();
        self
    }

    /// Keeps other numbers, the same in all four.
    fn keep_anything(&mut self, random: &mut Random) {
        keep_anything(&mut self.source.disciplines, random);
        self.chip.disciplines = self.source.disciplines;
        self.read_again();
    }

    /// Takes the second implementation's trees from the library's.
    fn read_again(&mut self) {
        let (source, chip) = (
            plain_tree::read(&self.source),
            plain_tree::read_chip(&self.chip, &self.drawing, &self.map),
        );
        self.rust_source = source.expect("a well formed tree");
        self.rust_chip = chip.expect("a well formed tree and a right map");
        self.compare("another map or other numbers");
    }

    /// A list of calls that fills the trees, empties them and so on.
    fn calls(&mut self, calls: usize, kinds: &mut Kinds, random: &mut Random) {
        let habits = Habits::any(random);
        let mut filling = true;
        for _ in 0..calls {
            let held = self.rust_source.held();
            let full = held == self.rust_source.limit();
            if held == 0 || full && random.one_in(8) {
                filling = held == 0;
            }
            let request = match random.one_in(if filling { 6 } else { 2 }) {
                true => Request::Pop,
                false => any_push(&self.drawing, &habits, random).0,
            };
            self.call(&request, kinds);
        }
    }

    /// Makes a call on all four. The one answer of all.
    fn call(&mut self, request: &Request, kinds: &mut Kinds) -> Answer {
        let before = (self.source, self.chip);
        let behind = Behind {
            source: &self.drawing,
            map: &self.map,
        };
        let source = request.by_rattle(&self.source);
        let chip = request.by_rattle_chip(behind, &self.chip);
        (self.source, self.chip) = (source.tree, chip.tree);
        let answer = (source.refusal, source.value);
        agree(|| self.words(request), (chip.refusal, chip.value), answer);
        let rust_source = request.by_rust(&mut self.rust_source);
        let rust_chip = request.by_rust(&mut self.rust_chip);
        let rust = (rust_source, rust_chip);
        agree(|| self.words(request), (answer, answer), rust);
        self.compare(request.name());
        kinds.meet(&format!("both, {}: {}", request.name(), answer.0));
        if answer.0 == 15 {
            let limit = self.rust_chip.limit();
            kinds.meet(&format!("both full at a limit of {limit}"));
        }
        self.count_moves(&before.1, kinds);
        if answer.0 == 0 {
            self.count_passed(&before.1, request, kinds);
        } else {
            for (before, after) in [(before.0, self.source), (before.1, self.chip)] {
                let mut expected = plain_tree::rewritten(&before);
                expected.state.refused = after.state.refused;
                agree(|| self.words(request), after == expected, true);
            }
        }
        answer
    }

    /// A call, in words for a difference.
    fn words(&self, request: &Request) -> String {
        format!(
            "{request:?} on {:?} and {:?} by {:?}",
            self.drawing, self.target, self.map
        )
    }

    /// An answer that is known.
    fn answers(&mut self, request: &Request, answer: Answer, kinds: &mut Kinds) {
        assert_eq!(self.call(request, kinds), answer, "{request:?}");
    }

    /// Packets held, refusals counted, all that is kept and every queue.
    fn compare(&self, what: &str) {
        let behind = Behind {
            source: &self.drawing,
            map: &self.map,
        };
        let (source, chip) = (&self.rust_source, &self.rust_chip);
        for (count, values) in [
            (
                [tree::held(&self.source), behind.held(&self.chip)],
                [source.held() as u32, chip.held() as u32],
            ),
            (
                [tree::refusals(&self.source), behind.refusals(&self.chip)],
                [source.refusals(), chip.refusals()],
            ),
        ] {
            let one = (0, values[0]);
            let rust = values.map(|value| (0, value));
            agree(
                || format!("a count after {what}"),
                [count.map(of), rust],
                [[one; 2]; 2],
            );
        }
        let kept = [
            self.source.disciplines,
            self.chip.disciplines,
            source.disciplines(),
            chip.disciplines(),
        ];
        agree(|| format!("kept after {what}"), kept, [kept[0]; 4]);
        let rattle = [
            plain::read(&self.source.state),
            plain::read(&self.chip.state),
        ];
        let rust = [Some(source.state()), Some(chip.state())];
        agree(|| format!("queues after {what}"), rattle, rust);
    }

    /// What a call moved of what the chip keeps: above 32 bits, and where the
    /// chip's number of the node is another or it has none.
    fn count_moves(&self, before: &linduvar::Tree, kinds: &mut Kinds) {
        let (old, new) = (&before.disciplines, &self.chip.disciplines);
        for (node, &image) in self.map.iter().enumerate() {
            if old.finish[node] < 1 << 32 && new.finish[node] >= 1 << 32 {
                kinds.meet("a finish moved above 32 bits");
            }
            let elsewhere = usize::from(image) != node;
            let place = match self.drawing[node] {
                1 => "that is passed over",
                _ => "with another image",
            };
            if elsewhere && old.virtual_time[node] != new.virtual_time[node] {
                kinds.meet(&format!("a virtual time moved at a node {place}"));
            }
            if elsewhere && old.finish[node] != new.finish[node] {
                kinds.meet(&format!("a finish moved at a node {place}"));
            }
        }
    }

    /// An accepted call, where nodes are passed over.
    fn count_passed(&self, before: &linduvar::Tree, request: &Request, kinds: &mut Kinds) {
        let drawing = Topology::read(&self.drawing, SOURCE_NODES).expect("a valid tree");
        for kind in passed_over(&drawing, &before.disciplines, request) {
            kinds.meet(kind);
        }
        if self.drawing.iter().all(|&children| children < 2) {
            kinds.meet(&format!("a lone leaf: {}", request.name()));
        }
    }
}

fn of(amount: linduvar::Amount) -> Answer {
    (amount.refusal, amount.value)
}

fn agree<T: PartialEq + Debug>(question: impl Fn() -> String, rattle: T, rust: T) {
    assert!(
        rattle == rust,
        "a difference: {}\n  Rattle {rattle:?}\n  Rust   {rust:?}",
        question()
    );
}

/// Each call, with the answers that it can get.
const ANSWERS: [(&str, &[u8]); 8] = [
    ("both, push", &[0, 13, 14, 15]),
    ("both, push to a leaf", &[0, 15, 23, 25]),
    ("both, pop", &[0, 16]),
    (
        "chip, push",
        &[0, 1, 2, 3, 4, 5, 6, 7, 8, 9, 10, 11, 13, 14, 15, 18, 26],
    ),
    (
        "chip, push to a leaf",
        &[0, 1, 2, 3, 4, 5, 6, 7, 8, 9, 10, 11, 15, 18, 23, 25, 26],
    ),
    (
        "chip, pop",
        &[0, 1, 2, 3, 4, 5, 6, 7, 8, 9, 10, 11, 16, 18, 26],
    ),
    ("chip, held", &[0, 1, 2, 3, 4, 5, 18]),
    ("chip, refusals", &[0, 1, 2, 3, 4, 5, 18]),
];

/// What is worth to be met besides.
const OCCASIONS: [&str; 20] = [
    "both full at a limit of 1",
    "both full at a limit of 2",
    "both full at a limit of 256",
    "open: 0",
    "open: 12",
    "open: 17",
    "open: 24",
    "open a chip's: 0",
    "open a chip's: 17",
    "open a chip's: 24",
    "another tree",
    "a virtual time moved at a node with another image",
    "a finish moved at a node with another image",
    "a finish moved at a node that is passed over",
    "a finish moved above 32 bits",
    "a lone leaf: push",
    "a lone leaf: push to a leaf",
    "a lone leaf: pop",
    "state, map: 18",
    "source, state: 18",
];

fn require_everything(kinds: &Kinds) {
    for (call, answers) in ANSWERS {
        for answer in answers {
            kinds.require(&format!("{call}: {answer}"), OFTEN_ENOUGH);
        }
    }
    for number in 1..=5 {
        for of in ["source", "target"] {
            kinds.require(&format!("open: {number} of the {of}"), OFTEN_ENOUGH);
        }
    }
    for kind in RULE_FAULTS
        .iter()
        .chain(&OCCASIONS)
        .chain(&PASSED_OVER_KINDS)
    {
        kinds.require(kind, OFTEN_ENOUGH);
    }
    let never = "a virtual time moved at a node that is passed over";
    assert_eq!(kinds.times(never), 0, "{never}");
    for damage in DAMAGES {
        kinds.require(damage, DAMAGED_ENOUGH);
    }
}
