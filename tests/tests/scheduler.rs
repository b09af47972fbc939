//! Makes the same calls to the Rattle library's tree with disciplines, which
//! stands by itself, and to the second implementation, and compares the
//! answers, the queues and all that is kept. The first difference ends the run.

use linduvar::tree;
use linduvar_tests::generate;
use linduvar_tests::history::History;
use linduvar_tests::kinds::Kinds;
use linduvar_tests::pairs;
use linduvar_tests::plain;
use linduvar_tests::plain_tree;
use linduvar_tests::queue_tree::Step;
use linduvar_tests::random::{seeded, Random};
use linduvar_tests::reduced::Reduced;
use linduvar_tests::requests::{
    any_push, length, passed_over, some_leaf, Answer, Request, LEAVES, PASSED_OVER_KINDS,
};
use linduvar_tests::rounds;
use linduvar_tests::rules::{any_rules, break_rules, keep_anything, right_rules, RULE_FAULTS};
use linduvar_tests::scheduler::{self, Disciplines, Rule, Rules, Tree, ARRIVAL, STRICT, WEIGHTED};
use linduvar_tests::states::{
    any_path, any_topology, any_tree, damage, dressed, Course, Habits, DAMAGES, DRESSES, LIMITS,
    PATHS,
};
use linduvar_tests::topology::{Topology, SOURCE_NODES, TARGET_NODES};
use linduvar_tests::translator::Path;
use linduvar_tests::worked_table;
use std::fmt;

const HISTORIES: usize = 2_500;
const CALLS_A_HISTORY: usize = 120;
const REDUCED: usize = 1_000;
const SHARINGS: usize = 40;
const OPENINGS: usize = 10_000;
const SHORT_LISTS: usize = 2_000;
const LONG_LISTS: usize = 20;
const STATES: usize = 3_000;
const ENDS: usize = 18_000;
const DAMAGED_TREES: usize = 8_000;
const MANY_ROUNDS: usize = 1_000;

/// Each answer of each call and each kind of thing must be met this often.
const OFTEN_ENOUGH: usize = 30;

fn main() {
    seeded(|seed| {
        examples();
        table();
        histories(seed);
        reduced_drawings(seed);
        let mut comparison = Comparison::new(seed);
        sharings(&mut comparison);
        openings(&mut comparison);
        random_lists(&mut comparison);
        states(&mut comparison);
        ends(&mut comparison);
        damaged_trees(&mut comparison);
        many_rounds(&mut comparison);
        comparison.print();
        comparison.require_everything();
    });
}

/// Rules for the first nodes, as pairs of a discipline and a weight; arrival
/// for all others.
fn rules(first: &[(u8, u8)]) -> Rules {
    let rule = |&(discipline, weight): &(u8, u8)| Rule { discipline, weight };
    let mut rules = [rule(&(ARRIVAL, 0)); TARGET_NODES];
    for (place, given) in rules.iter_mut().zip(first) {
        *place = rule(given);
    }
    rules
}

/// Worked by hand.
fn examples() {
    // Weights 1 and 2: the second child's packets take half as long.
    let mut tree = Literal::open(&[2, 0, 0], 5, &[(WEIGHTED, 0), (ARRIVAL, 1), (ARRIVAL, 2)]);
    tree.push_to_leaf(1, 0, 10, 11, (0, 1));
    tree.keeps(&[0], &[(1, 2560)]);
    tree.push_to_leaf(2, 0, 10, 21, (0, 2));
    tree.push_to_leaf(2, 0, 11, 22, (0, 3));
    tree.keeps(&[0], &[(1, 2560), (2, 1280 + 1408)]);
    tree.push_to_leaf(1, 0, 10, 12, (0, 4));
    tree.push_to_leaf(2, 0, 0, 23, (0, 5));
    // Full: nothing is kept of it. No such leaf comes before that.
    tree.push_to_leaf(2, 0, 9, 24, (15, 1));
    tree.push_to_leaf(0, 0, 9, 24, (25, 0));
    tree.push_to_leaf(3, 0, 9, 24, (25, 0));
    tree.keeps(&[0], &[(1, 5120), (2, 2688)]);
    for (packet, time) in [(11, 0), (21, 0), (22, 1280), (12, 2560), (23, 2688)] {
        tree.pop((0, packet));
        tree.keeps(&[time], &[(1, 5120), (2, 2688)]);
    }
    tree.pop((16, 0));
    // By path: a start past all finishes, and below; no finish is altered.
    tree.push(&[(2, 9000)], 7, 30, (0, 1));
    tree.push(&[(1, 4000)], 7, 31, (0, 2));
    tree.keeps(&[2688], &[(1, 5120), (2, 2688)]);
    tree.pop((0, 31));
    tree.pop((0, 30));
    tree.keeps(&[9000], &[(1, 5120), (2, 2688)]);
    tree.push_to_leaf(1, 0, 1, 32, (0, 1));
    tree.keeps(&[9000], &[(1, 9256), (2, 2688)]);
    // A virtual time may fall.
    tree.push(&[(1, 5)], 7, 33, (0, 2));
    tree.pop((0, 32));
    tree.keeps(&[5], &[(1, 9256), (2, 2688)]);

    // Strict goes by class, at the root and at the leaf; arrival by turn.
    let mut tree = Literal::open(&[2, 0, 0], 9, &[(STRICT, 0), (ARRIVAL, 0), (STRICT, 0)]);
    tree.push_to_leaf(1, 7, 1, 1, (0, 1));
    tree.push_to_leaf(1, 3, 1, 2, (0, 2));
    tree.push_to_leaf(2, 5, 1, 3, (0, 3));
    tree.push_to_leaf(2, 255, 1, 4, (0, 4));
    tree.push_to_leaf(2, 0, 1, 5, (0, 5));
    for packet in [5, 1, 3, 2, 4] {
        tree.pop((0, packet));
    }
    tree.keeps(&[0, 0, 0], &[]);

    // Two weighted nodes on the way: each has its own time, and all starts are
    // read before a finish is written.
    let nested = [
        (WEIGHTED, 0),
        (WEIGHTED, 1),
        (STRICT, 255),
        (STRICT, 2),
        (ARRIVAL, 1),
    ];
    let mut tree = Literal::open(&[2, 2, 0, 0, 0], 4, &nested);
    tree.push_to_leaf(2, 1, 255, 1, (0, 1));
    tree.push_to_leaf(3, 1, 255, 2, (0, 2));
    tree.keeps(&[0, 0], &[(1, 2 * 65_280), (2, 256), (3, 32_640)]);
    tree.push_to_leaf(2, 1, 255, 3, (0, 3));
    tree.keeps(&[0, 0], &[(1, 3 * 65_280), (2, 512), (3, 32_640)]);
    for (packet, above, below) in [(1, 0, 0), (2, 65_280, 0), (3, 130_560, 256)] {
        tree.pop((0, packet));
        tree.keeps(&[above, below], &[(1, 195_840), (2, 512), (3, 32_640)]);
    }

    // The largest finish, and one above it; a full tree comes first.
    let alike = [(WEIGHTED, 0), (ARRIVAL, 1), (ARRIVAL, 1)];
    let mut tree = Literal::open(&[2, 0, 0], 2, &alike);
    tree.tree.disciplines.finish[1] = u64::MAX - 255;
    tree.push_to_leaf(1, 0, 1, 1, (23, 0));
    tree.keeps(&[0], &[(1, u64::MAX - 255)]);
    tree.tree.disciplines.finish[1] = u64::MAX - 256;
    tree.push_to_leaf(1, 0, 1, 1, (0, 1));
    tree.keeps(&[0], &[(1, u64::MAX)]);
    tree.push_to_leaf(1, 0, 1, 2, (23, 0));
    tree.push_to_leaf(1, 0, 0, 2, (0, 2));
    tree.push_to_leaf(1, 0, 1, 3, (15, 1));
    tree.pop((0, 1));
    tree.pop((0, 2));
    tree.keeps(&[u64::MAX], &[(1, u64::MAX)]);

    // The greatest service: 65,535 at weight 1, from a time by path. What was the
    // largest finish with ranks of 32 bits is one no more.
    const SERVICE: u64 = 65_535 * 256;
    for (start, answer) in [
        (u64::from(u32::MAX) - SERVICE, (0, 1)),
        (u64::from(u32::MAX) - SERVICE + 1, (0, 1)),
        (u64::from(u32::MAX), (0, 1)),
        (u64::MAX - SERVICE, (0, 1)),
        (u64::MAX - SERVICE + 1, (23, 0)),
    ] {
        let mut tree = Literal::open(&[2, 0, 0], 1, &alike);
        tree.push(&[(1, start)], 0, 1, (0, 1));
        tree.pop((0, 1));
        tree.push_to_leaf(1, 0, u16::MAX, 2, answer);
        let finish = if answer.0 == 0 { start + SERVICE } else { 0 };
        tree.keeps(&[start], &[(1, finish)]);
    }

    // A node with one child is passed over: whatever its discipline, ranks there
    // are 0, no finish is too large and what stands in its places stays. The
    // leaf's own discipline holds.
    for discipline in [ARRIVAL, STRICT, WEIGHTED] {
        let mut tree = Literal::open(&[1, 0], 2, &[(discipline, 0), (STRICT, 1)]);
        tree.tree.disciplines.virtual_time[0] = 5;
        tree.tree.disciplines.finish[1] = u64::MAX;
        tree.push_to_leaf(1, 9, u16::MAX, 1, (0, 1));
        tree.push_to_leaf(1, 3, u16::MAX, 2, (0, 2));
        let state = plain::read(&tree.tree.state).expect("a state");
        assert!(state.queues[0].iter().all(|entry| entry.rank == 0));
        tree.pop((0, 2));
        tree.pop((0, 1));
        tree.push(&[(1, 8)], 0, 3, (0, 1));
        tree.pop((0, 3));
        tree.keeps(&[5], &[(1, u64::MAX)]);
    }
    // 24 is about the rules as given.
    let opened = tree::open(&[1, 0], 1, &rules(&[(WEIGHTED, 0), (ARRIVAL, 0)]));
    assert_eq!(opened.refusal, 24);
    println!("examples: as worked by hand");
}

/// A tree on Rattle's side alone, for answers that are known.
struct Literal {
    tree: linduvar::Tree,
}

impl Literal {
    fn open(topology: &[u8], limit: usize, first: &[(u8, u8)]) -> Literal {
        let opened = tree::open(topology, limit, &rules(first));
        assert_eq!(opened.refusal, 0);
        Literal { tree: opened.tree }
    }

    fn push_to_leaf(&mut self, leaf: usize, class: u8, length: u16, packet: u32, answer: Answer) {
        self.answers(
            &Request::PushToLeaf {
                leaf,
                class,
                length,
                packet,
            },
            answer,
        );
    }

    fn push(&mut self, steps: &[(u8, u64)], leaf_rank: u64, packet: u32, answer: Answer) {
        let steps: Vec<Step> = steps
            .iter()
            .map(|&(child, rank)| Step { child, rank })
            .collect();
        let path = linduvar::Path::new(&steps, leaf_rank);
        self.answers(&Request::Push { path, packet }, answer);
    }

    fn pop(&mut self, answer: Answer) {
        self.answers(&Request::Pop, answer);
    }

    fn answers(&mut self, request: &Request, answer: Answer) {
        let met = request.by_rattle(&self.tree);
        assert_eq!((met.refusal, met.value), answer, "{request:?}");
        self.tree = met.tree;
    }

    /// The virtual times of the first nodes, and some finishes.
    fn keeps(&self, times: &[u64], finishes: &[(usize, u64)]) {
        let kept = &self.tree.disciplines;
        assert_eq!(kept.virtual_time[..times.len()], *times, "virtual times");
        for &(node, finish) in finishes {
            assert_eq!(kept.finish[node], finish, "the finish of {node}");
        }
    }
}

/// The table of docs/DISCIPLINES.md.
fn table() {
    let rows = worked_table::rows();
    let shares = [(WEIGHTED, 0), (ARRIVAL, 1), (ARRIVAL, 3)];
    let mut tree = Literal::open(&[2, 0, 0], rows.len(), &shares);
    for (row, held) in rows.iter().zip(1..) {
        tree.push_to_leaf(row.leaf, 0, row.length, row.packet, (0, held));
        tree.keeps(&[0], &[(row.leaf, row.finish)]);
    }
    let mut leaving = rows.clone();
    leaving.sort_by_key(|row| row.place);
    for row in &leaving {
        tree.pop((0, row.packet));
        tree.keeps(&[row.start], &[]);
    }
    tree.pop((16, 0));
    println!("docs/DISCIPLINES.md: the table is as computed");
}

/// The second implementation beside one that looks everything up.
fn histories(seed: u64) {
    let mut random = Random::new(seed);
    for _ in 0..HISTORIES {
        let topology = any_topology(&mut random);
        let drawing = Topology::read(&topology, TARGET_NODES).expect("a valid tree");
        let rules = right_rules(&drawing, &mut random);
        let limit = random.pick(&LIMITS);
        let mut tree = Tree::open(&topology, limit, &rules).expect("right rules");
        let mut history = History::new(drawing, limit, &rules);
        let habits = Habits::any(&mut random);
        let pops = random.within(2..=6);
        for _ in 0..CALLS_A_HISTORY {
            let request = match random.one_in(pops) {
                true => Request::Pop,
                false => any_push(&topology, &habits, &mut random).0,
            };
            let looked_up = by_history(&request, &mut history);
            let answer = request.by_rust(&mut tree);
            assert_eq!(answer, looked_up, "{request:?}");
            compare_history(&tree, &history, &topology);
        }
    }
    println!(
        "{} calls on Rust alone: as looked up in what has happened",
        HISTORIES * CALLS_A_HISTORY
    );
}

fn by_history(request: &Request, history: &mut History) -> Answer {
    let value = match *request {
        Request::Push { path, packet } => {
            let (steps, leaf_rank) = (path.steps().to_vec(), path.leaf_rank);
            history.push(&Path { steps, leaf_rank }, packet)
        }
        Request::PushToLeaf {
            leaf,
            class,
            length,
            packet,
        } => history.push_to_leaf(leaf, class, length, packet),
        Request::Pop => history.pop(),
    };
    value.map_or_else(|refused| refused, |value| (0, value))
}

fn compare_history(tree: &Tree, history: &History, topology: &[u8]) {
    assert_eq!(tree.held(), history.held());
    assert_eq!(tree.refusals(), history.refusals());
    let kept = tree.disciplines();
    for node in 0..topology.len() {
        let (time, finish) = (kept.virtual_time[node], kept.finish[node]);
        assert_eq!(u128::from(time), history.virtual_time(node));
        assert_eq!(u128::from(finish), history.finish(node));
    }
}

/// A drawing beside its reduced drawing, both by the second implementation: they
/// answer alike. A branch has the weight of its top node under its kept parent,
/// be that node passed over or not.
fn reduced_drawings(seed: u64) {
    let mut random = Random::new(seed);
    for _ in 0..REDUCED {
        let topology = pairs::drawing(&mut random, SOURCE_NODES);
        let drawing = Topology::read(&topology, SOURCE_NODES).expect("a valid tree");
        let reduced = Reduced::new(&drawing);
        let rules = right_rules(&drawing, &mut random);
        let left = reduced_rules(&drawing, &reduced, &rules);
        let limit = random.pick(&LIMITS);
        let mut whole = Tree::open(&topology, limit, &rules).expect("right rules");
        let mut rest = Tree::open(&reduced.tree.bytes(), limit, &left).expect("right rules");
        for _ in 0..CALLS_A_HISTORY {
            let leaf = some_leaf(&reduced.tree, &mut random);
            let (class, length) = (random.below(3) as u8, length(&mut random));
            let packet = random.number() as u32;
            let answers = match random.one_in(3) {
                true => (whole.pop(), rest.pop()),
                false => {
                    let push = |tree: &mut Tree, leaf: usize| {
                        let held = tree.push_to_leaf(leaf, class, length, packet);
                        held.map(|held| held as u32)
                    };
                    (push(&mut whole, reduced.kept[leaf]), push(&mut rest, leaf))
                }
            };
            assert_eq!(answers.0, answers.1, "{topology:?}");
        }
    }
    println!("{REDUCED} drawings answer as reduced");
}

/// The rules of the nodes that are left.
fn reduced_rules(drawing: &Topology, reduced: &Reduced, given: &Rules) -> Rules {
    let mut left = rules(&[]);
    for (place, &node) in reduced.kept.iter().enumerate() {
        left[place].discipline = given[node].discipline;
        let below = reduced.tree.children(place);
        for (&branch, &child) in below.iter().zip(drawing.children(node)) {
            left[branch].weight = given[child].weight;
        }
    }
    left
}

/// Children that always have a packet waiting share as their weights say.
fn sharings(comparison: &mut Comparison) {
    for _ in 0..SHARINGS {
        let sharing = Sharing::any(&mut comparison.random);
        let departures = sharing.departures(comparison);
        sharing.check(&departures);
    }
    println!("{SHARINGS} roots share as their weights say");
}

/// A weighted root with leaves, each with its weight and its longest packet.
struct Sharing {
    children: Vec<(u8, u16)>,
}

impl Sharing {
    fn any(random: &mut Random) -> Sharing {
        let count = random.within(2..=8);
        let mut child = |_| (random.within(1..=9) as u8, length(random).max(1));
        Sharing {
            children: (0..count).map(&mut child).collect(),
        }
    }

    fn open(&self, comparison: &mut Comparison) -> Sides {
        let count = self.children.len();
        let topology = [vec![count as u8], vec![0; count]].concat();
        let mut first = vec![(WEIGHTED, 0)];
        first.extend(self.children.iter().map(|&(weight, _)| (ARRIVAL, weight)));
        let opened = comparison.open(&topology, 256, &rules(&first));
        opened.expect("right rules")
    }

    /// The children from which packets departed, with the packets' lengths: two
    /// wait at each child from the start, and for each that leaves one comes.
    fn departures(&self, comparison: &mut Comparison) -> Vec<(usize, u16)> {
        let mut sides = self.open(comparison);
        for child in (0..self.children.len())
            .cycle()
            .take(2 * self.children.len())
        {
            self.fill(&mut sides, child, comparison);
        }
        (0..100)
            .map(|_| {
                let (_, packet) = comparison.call(&mut sides, &Request::Pop);
                let child = (packet & 0xFF) as usize;
                self.fill(&mut sides, child, comparison);
                (child, (packet >> 8) as u16)
            })
            .collect()
    }

    /// Pushes a packet to a child; its number has its length and the child.
    fn fill(&self, sides: &mut Sides, child: usize, comparison: &mut Comparison) {
        let longest = usize::from(self.children[child].1);
        let length = comparison.random.within(0..=longest) as u16;
        let request = Request::PushToLeaf {
            leaf: child + 1,
            class: 0,
            length,
            packet: u32::from(length) << 8 | child as u32,
        };
        assert_eq!(comparison.call(sides, &request).0, 0);
    }

    /// What a packet adds to its child's last finish.
    fn service(&self, child: usize, length: u16) -> i64 {
        i64::from(length) * 256 / i64::from(self.children[child].0)
    }

    /// Over any stretch of departures one child leads another by no more than
    /// what the longest packets of both add.
    fn check(&self, departures: &[(usize, u16)]) {
        let longest = |child: usize| self.service(child, self.children[child].1);
        for one in 0..self.children.len() {
            for other in 0..one {
                let lead = self.greatest_lead(one, other, departures);
                assert!(lead <= longest(one) + longest(other), "{one} and {other}");
            }
        }
    }

    /// The most by which one child leads the other, or the other it, over any
    /// stretch.
    fn greatest_lead(&self, one: usize, other: usize, departures: &[(usize, u16)]) -> i64 {
        let (mut lead, mut least, mut most) = (0, 0, 0);
        for &(child, length) in departures {
            if child == one {
                lead += self.service(child, length);
            } else if child == other {
                lead -= self.service(child, length);
            }
            (least, most) = (lead.min(least), lead.max(most));
        }
        most - least
    }
}

/// Topologies, limits and rules, right and at fault.
fn openings(comparison: &mut Comparison) {
    for _ in 0..OPENINGS {
        let random = &mut comparison.random;
        let topology = match random.one_in(2) {
            true => generate::any(random),
            false => any_topology(random),
        };
        let any = random.within(1..=256);
        let limit = random.pick(&[0, 257, 65_537, usize::MAX, any, any, any, any]);
        let (rules, fault) = any_rules(&topology, random);
        let opened = comparison.open(&topology, limit, &rules);
        match fault {
            Some(fault) if (1..=256).contains(&limit) => {
                assert!(opened.is_none());
                comparison.kinds.meet(&format!("no opening: {fault}"));
            }
            _ => {}
        }
    }
}

/// Random lists of calls from an opening on.
fn random_lists(comparison: &mut Comparison) {
    for list in 0..SHORT_LISTS + LONG_LISTS {
        let random = &mut comparison.random;
        let (limit, calls) = match list {
            0..SHORT_LISTS => (random.pick(&LIMITS), 40),
            _ => ([255, 256][list % 2], 700),
        };
        let topology = any_topology(random);
        let drawing = Topology::read(&topology, TARGET_NODES).expect("a valid tree");
        let rules = right_rules(&drawing, random);
        let habits = Habits::any(random);
        let mut sides = comparison
            .open(&topology, limit, &rules)
            .expect("right rules");
        let mut course = Course::Filling;
        for _ in 0..calls {
            let push = course.pushes(sides.tree.held(), limit, &mut comparison.random);
            comparison.any_call(&mut sides, &habits, push);
        }
    }
}

/// Calls on trees that no opening led to, but that are well formed.
fn states(comparison: &mut Comparison) {
    for _ in 0..STATES {
        let random = &mut comparison.random;
        let habits = Habits::any(random);
        let (plain, ..) = any_plain_tree(&habits, random);
        let mut sides = Sides::read(plain);
        comparison.compare(&sides, format_args!("on a tree as given"));
        for _ in 0..4 {
            let push = !comparison.random.one_in(3);
            comparison.any_call(&mut sides, &habits, push);
        }
    }
}

/// A well formed tree that holds packets and keeps any numbers, and its
/// drawing.
fn any_plain_tree(habits: &Habits, random: &mut Random) -> (linduvar::Tree, Topology) {
    let tree = any_tree(random, habits);
    let drawing = Topology::read(tree.topology(), TARGET_NODES).expect("a valid tree");
    let mut state = tree.state();
    let dress = random.pick(&DRESSES);
    if dress == "limit as many as held" {
        state.limit = tree.held().max(1);
    }
    let mut disciplines = scheduler::fresh(&right_rules(&drawing, random));
    if !random.one_in(4) {
        keep_anything(&mut disciplines, random);
    }
    let state: linduvar::State = dressed(&state, dress, random);
    (linduvar::Tree { state, disciplines }, drawing)
}

/// Packets whose finish is just the largest, or one above it; and the same of
/// what was the largest with ranks of 32 bits.
fn ends(comparison: &mut Comparison) {
    for _ in 0..ENDS {
        let random = &mut comparison.random;
        let habits = Habits::any(random);
        let (mut plain, drawing) = any_plain_tree(&habits, random);
        let leaf = some_leaf(&drawing, random);
        let length = length(random);
        let (answer, end, finish) = match random.one_in(4) {
            true => random.pick(&FINISHES),
            false => random.pick(&FINISHES[..2]),
        };
        let disciplines = &mut plain.disciplines;
        let Some(above) = finish_at(disciplines, &drawing, leaf, length, finish, random) else {
            continue;
        };
        let mut sides = Sides::read(plain);
        let (answer, end) = match sides.tree.held() == sides.tree.limit() {
            true => (15, format!("full, {end}")),
            false => (answer, end.to_string()),
        };
        let request = Request::PushToLeaf {
            leaf,
            class: 0,
            length,
            packet: 5,
        };
        let met = comparison.call(&mut sides, &request).0;
        assert_eq!(met, answer, "{request:?}");
        comparison.kinds.meet(&end);
        comparison.kinds.meet(&format!("{end}, {above}"));
    }
}

/// Finishes at an end, with the answer to a packet that has one.
const FINISHES: [(u8, &str, u128); 4] = [
    (0, "the largest finish", u64::MAX as u128),
    (23, "one above the largest finish", 1 << 64),
    (0, "the largest finish of 32 bits", u32::MAX as u128),
    (0, "one above the largest finish of 32 bits", 1 << 32),
];

/// Gives a packet to that leaf that finish at one weighted node on its way, and a
/// small one at all others. Answers where that node is, or None if there is no
/// such node or no such start.
fn finish_at(
    disciplines: &mut Disciplines,
    drawing: &Topology,
    leaf: usize,
    length: u16,
    finish: u128,
    random: &mut Random,
) -> Option<&'static str> {
    let mut children = vec![leaf];
    while let Some(parent) = drawing.parent(children[children.len() - 1]) {
        children.push(parent);
    }
    let parent = |child: usize| drawing.parent(child).expect("the root was taken off");
    children.pop();
    children.retain(|&child| {
        let node = parent(child);
        disciplines.rules[node].discipline == WEIGHTED && !drawing.is_passed_over(node)
    });
    for &child in &children {
        disciplines.virtual_time[parent(child)] = random.below(9) as u64;
        disciplines.finish[child] = random.below(9) as u64;
    }
    let at = random.below(children.len().max(1));
    let child = *children.get(at)?;
    let weight = u128::from(disciplines.rules[child].weight);
    let service = u128::from(length) * 256 / weight;
    let start = u64::try_from(finish - service).ok()?;
    if random.one_in(2) {
        disciplines.virtual_time[parent(child)] = start;
    } else {
        disciplines.finish[child] = start;
    }
    Some(match at {
        _ if children.len() == 1 => "at the only weighted node",
        0 => "at the last weighted node",
        _ if at + 1 == children.len() => "at the first weighted node",
        _ => "at a weighted node between others",
    })
}

/// Trees with one clause of well-formedness broken, or a rule.
fn damaged_trees(comparison: &mut Comparison) {
    for _ in 0..DAMAGED_TREES {
        let random = &mut comparison.random;
        let habits = Habits::any(random);
        let (mut plain, drawing) = any_plain_tree(&habits, random);
        let topology = plain.state.frame.topology[..plain.state.frame.nodes].to_vec();
        let (push, ..) = any_push(&topology, &habits, random);
        let (kind, broken) = if random.one_in(4) {
            let kind = random.pick(&RULE_FAULTS);
            let rules = &mut plain.disciplines.rules;
            (kind, break_rules(rules, &drawing, kind, random))
        } else {
            let kind = random.pick(&DAMAGES);
            (kind, damage(&mut plain.state, kind, random))
        };
        if broken.is_none() {
            continue;
        }
        match plain_tree::read(&plain) {
            Err(refusal) => {
                assert_eq!(refusal.number(), 18);
                comparison.kinds.meet(kind);
                comparison.refuses_all(&plain, &push, kind);
            }
            Ok(tree) => {
                comparison.kinds.meet("damage that did no harm");
                let mut sides = Sides { plain, tree };
                comparison.compare(&sides, format_args!("after {kind}"));
                comparison.any_call(&mut sides, &habits, true);
                comparison.any_call(&mut sides, &habits, false);
            }
        }
    }
}

/// The loops of the benchmark, with and without refusals in them.
fn many_rounds(comparison: &mut Comparison) {
    let mut altered = 0;
    for trial in 0..MANY_ROUNDS {
        let random = &mut comparison.random;
        let habits = Habits::any(random);
        let (plain, drawing) = any_plain_tree(&habits, random);
        let mut sides = Sides::read(plain);
        let before = sides.tree.state();
        let rounds = random.within(0..=40) as u32;
        if trial % 2 == 0 {
            let (leaf, length) = (some_leaf(&drawing, random), length(random));
            sides.plain = rounds::to_leaf(&plain, leaf, 7, length, rounds);
            scheduler::rounds(&mut sides.tree, leaf, 7, length, rounds);
        } else {
            let (path, ..) = any_path(&before.topology, &habits, random);
            let (steps, leaf_rank) = (path.steps().to_vec(), path.leaf_rank);
            sides.plain = rounds::by_path(&plain, &path, rounds);
            scheduler::path_rounds(&mut sides.tree, &Path { steps, leaf_rank }, rounds);
        }
        comparison.compare(&sides, format_args!("after {rounds} rounds"));
        altered += usize::from(sides.tree.state() != before);
    }
    assert!(altered >= OFTEN_ENOUGH, "only {altered} trees were altered");
    println!("{MANY_ROUNDS} times many rounds, {altered} of which altered the tree");
}

/// One tree on both sides: as Rattle has it in plain numbers, and as Rust has
/// it.
#[derive(Clone)]
struct Sides {
    plain: linduvar::Tree,
    tree: Tree,
}

impl Sides {
    /// The tree is well formed.
    fn read(plain: linduvar::Tree) -> Sides {
        let tree = plain_tree::read(&plain).expect("a well formed tree");
        Sides { plain, tree }
    }
}

/// Makes the calls on both sides, and counts what was met.
struct Comparison {
    seed: u64,
    random: Random,
    calls: usize,
    kinds: Kinds,
}

/// Each call, with the answers that it can get.
const ANSWERS: [(&str, &[u8]); 6] = [
    ("open", &[0, 1, 2, 3, 4, 5, 17, 24]),
    ("push", &[0, 13, 14, 15, 18]),
    ("push to a leaf", &[0, 15, 18, 23, 25]),
    ("pop", &[0, 16, 18]),
    ("held", &[18]),
    ("refusals", &[18]),
];

/// What is worth to be met besides the kinds of paths, leaves and damages.
const OCCASIONS: [&str; 33] = [
    "a tree of 64 nodes",
    "a finish moved past node 31",
    "a virtual time moved past node 31",
    "a finish moved from the virtual time on",
    "a finish moved from the last finish on",
    "a finish moved above 32 bits",
    "a finish moved at weight 1",
    "a finish moved at weight 255",
    "a finish moved by length 65535",
    "length 0",
    "1 finishes moved",
    "2 finishes moved",
    "3 finishes moved",
    "4 finishes moved",
    "a virtual time rose",
    "a virtual time rose above 32 bits",
    "a virtual time fell",
    "1 virtual times moved",
    "2 virtual times moved",
    "3 virtual times moved",
    "4 virtual times moved",
    "full at a limit of 1",
    "full at a limit of 2",
    "full at a limit of 256",
    "no such leaf when full",
    "the largest finish, at the first weighted node",
    "the largest finish, at the last weighted node",
    "one above the largest finish, at the first weighted node",
    "one above the largest finish, at the last weighted node",
    "one above the largest finish, at a weighted node between others",
    "full, one above the largest finish",
    "the largest finish of 32 bits",
    "one above the largest finish of 32 bits",
];

impl Comparison {
    fn new(seed: u64) -> Comparison {
        Comparison {
            seed,
            random: Random::new(seed),
            calls: 0,
            kinds: Kinds::default(),
        }
    }

    fn agree<T: PartialEq + fmt::Debug>(&self, question: fmt::Arguments, rattle: T, rust: T) {
        if rattle != rust {
            panic!(
                "a difference: {question}\n  seed   {}\n  Rattle {rattle:?}\n  Rust   {rust:?}",
                self.seed
            );
        }
    }

    fn meet(&mut self, call: &str, answer: u8) {
        self.kinds.meet(&format!("{call}: {answer}"));
        self.calls += 1;
    }

    fn open(&mut self, topology: &[u8], limit: usize, rules: &Rules) -> Option<Sides> {
        let rattle = tree::open(topology, limit, rules);
        let opened = Tree::open(topology, limit, rules);
        let rust = plain_tree::opened(&opened);
        let question = format_args!("opening {topology:?}, limit {limit}, {rules:?}");
        self.agree(question, rattle.refusal, rust.refusal);
        self.agree(question, rattle.tree, rust.tree);
        self.meet("open", rust.refusal);
        let plain = rattle.tree;
        match opened {
            Ok(tree) => Some(Sides { plain, tree }),
            Err(_) => {
                // No call serves what an opening that was refused gave.
                let path = linduvar::Path::new(&[], 0);
                let push = Request::Push { path, packet: 0 };
                self.refuses_all(&plain, &push, "a refused opening");
                None
            }
        }
    }

    /// A push of any kind, or a pop.
    fn any_call(&mut self, sides: &mut Sides, habits: &Habits, push: bool) {
        if !push {
            self.call(sides, &Request::Pop);
            return;
        }
        let topology = sides.tree.state().topology;
        let (request, kind, answer) = any_push(&topology, habits, &mut self.random);
        if self.call(sides, &request).0 == answer {
            self.kinds.meet(kind);
        }
    }

    /// Makes one call on both sides and returns the answer.
    fn call(&mut self, sides: &mut Sides, request: &Request) -> Answer {
        let before = sides.plain;
        let held = sides.tree.held();
        let rattle = request.by_rattle(&before);
        let rust = request.by_rust(&mut sides.tree);
        let answer = (rattle.refusal, rattle.value);
        sides.plain = rattle.tree;
        let on = Earlier(&before);
        self.agree(format_args!("{request:?} on {on:?}"), answer, rust);
        self.meet(request.name(), answer.0);

        // A refusal leaves all but the count of a full tree.
        if answer.0 != 0 {
            let mut expected = plain_tree::rewritten(&before);
            if answer.0 == 15 {
                expected.state.refused = answer.1;
            }
            let same = sides.plain == expected;
            let question = format_args!("{request:?}, refused: is {on:?} as before");
            self.agree(question, same, true);
        }
        self.compare(sides, format_args!("after {request:?} on {on:?}"));
        match answer.0 {
            0 => self.count_moves(&before, &sides.plain, request),
            15 => {
                let limit = sides.tree.limit();
                self.kinds.meet(&format!("full at a limit of {limit}"));
            }
            25 if held == sides.tree.limit() => self.kinds.meet("no such leaf when full"),
            _ => {}
        }
        answer
    }

    /// What an accepted call moved of what is kept.
    fn count_moves(&mut self, before: &linduvar::Tree, after: &linduvar::Tree, request: &Request) {
        let (old, new) = (&before.disciplines, &after.disciplines);
        let bytes = &before.state.frame.topology[..before.state.frame.nodes];
        let drawing = Topology::read(bytes, TARGET_NODES).expect("a valid tree");
        let moved = |old: &[u64], new: &[u64]| -> Vec<usize> {
            (0..bytes.len())
                .filter(|&node| old[node] != new[node])
                .collect()
        };
        let times = moved(&old.virtual_time, &new.virtual_time);
        let finishes = moved(&old.finish, &new.finish);
        for kind in passed_over(&drawing, old, request) {
            self.kinds.meet(kind);
        }
        for &node in &times {
            assert!(!drawing.is_passed_over(node), "node {node} keeps nothing");
            let rose = new.virtual_time[node] > old.virtual_time[node];
            let way = if rose { "rose" } else { "fell" };
            self.kinds.meet(&format!("a virtual time {way}"));
            if old.virtual_time[node] < 1 << 32 && new.virtual_time[node] >= 1 << 32 {
                self.kinds.meet("a virtual time rose above 32 bits");
            }
            if node >= SOURCE_NODES {
                self.kinds.meet("a virtual time moved past node 31");
            }
        }
        for &node in &finishes {
            let parent = drawing.parent(node).expect("the root has no finish");
            assert!(
                !drawing.is_passed_over(parent),
                "node {parent} keeps nothing"
            );
            let by_time = old.virtual_time[parent] > old.finish[node];
            let from = if by_time {
                "virtual time"
            } else {
                "last finish"
            };
            self.kinds
                .meet(&format!("a finish moved from the {from} on"));
            if old.finish[node] < 1 << 32 && new.finish[node] >= 1 << 32 {
                self.kinds.meet("a finish moved above 32 bits");
            }
            if node >= SOURCE_NODES {
                self.kinds.meet("a finish moved past node 31");
            }
            match new.rules[node].weight {
                1 => self.kinds.meet("a finish moved at weight 1"),
                255 => self.kinds.meet("a finish moved at weight 255"),
                _ => {}
            }
        }
        if bytes.len() == TARGET_NODES {
            self.kinds.meet("a tree of 64 nodes");
        }
        match *request {
            Request::PushToLeaf { length: 0, .. } => self.kinds.meet("length 0"),
            Request::PushToLeaf { length: 65_535, .. } if !finishes.is_empty() => {
                self.kinds.meet("a finish moved by length 65535");
            }
            _ => {}
        }
        self.kinds
            .meet(&format!("{} finishes moved", finishes.len()));
        self.kinds
            .meet(&format!("{} virtual times moved", times.len()));
    }

    /// What is held, what was refused, every queue and all that is kept.
    fn compare(&self, sides: &Sides, question: fmt::Arguments) {
        let count = |value: u32| linduvar::Amount { refusal: 0, value };
        let held = count(sides.tree.held() as u32);
        let rattle = tree::held(&sides.plain);
        self.agree(format_args!("held, {question}"), rattle, held);
        let refusals = count(sides.tree.refusals());
        let rattle = tree::refusals(&sides.plain);
        self.agree(format_args!("refusals, {question}"), rattle, refusals);
        let (state, rattle) = (Some(sides.tree.state()), plain::read(&sides.plain.state));
        self.agree(format_args!("queues, {question}"), rattle, state);
        let (kept, rattle) = (sides.tree.disciplines(), sides.plain.disciplines);
        self.agree(format_args!("kept, {question}"), rattle, kept);
    }

    /// Every call on an ill formed tree is answered by 18, whatever else is at
    /// fault, and alters nothing; so do rounds of calls.
    fn refuses_all(&mut self, before: &linduvar::Tree, push: &Request, kind: &str) {
        let eighteen = linduvar::Amount {
            refusal: 18,
            value: 0,
        };
        for (call, rattle) in [
            ("held", tree::held(before)),
            ("refusals", tree::refusals(before)),
        ] {
            self.agree(format_args!("{call}: {kind}"), rattle, eighteen);
            self.meet(call, 18);
        }
        for request in [push, &Request::Pop] {
            let rattle = request.by_rattle(before);
            let same = rattle.tree == plain_tree::rewritten(before);
            let answer = (rattle.refusal, rattle.value, same);
            self.agree(format_args!("{request:?}: {kind}"), answer, (18, 0, true));
            self.meet(request.name(), 18);
        }
        let path = linduvar::Path::new(&[], 0);
        for after_rounds in [
            rounds::to_leaf(before, 0, 0, 0, 1),
            rounds::by_path(before, &path, 1),
        ] {
            let question = format_args!("is it as before after a round: {kind}");
            self.agree(
                question,
                after_rounds == plain_tree::rewritten(before),
                true,
            );
        }
    }

    fn print(&self) {
        println!("{} calls; how often each thing was met:", self.calls);
        self.kinds.print();
    }

    fn require_everything(&self) {
        for (call, answers) in ANSWERS {
            for answer in answers {
                self.kinds
                    .require(&format!("{call}: {answer}"), OFTEN_ENOUGH);
            }
        }
        for fault in RULE_FAULTS {
            self.kinds
                .require(&format!("no opening: {fault}"), OFTEN_ENOUGH);
        }
        let pushes = PATHS.iter().chain(&LEAVES).map(|(kind, _)| kind);
        let damages = DAMAGES.iter().chain(&RULE_FAULTS);
        let occasions = OCCASIONS.iter().chain(&PASSED_OVER_KINDS);
        for kind in pushes.chain(damages).chain(occasions) {
            self.kinds.require(kind, OFTEN_ENOUGH);
        }
    }
}

/// A tree in plain numbers, read only when a difference is printed.
struct Earlier<'a>(&'a linduvar::Tree);

impl fmt::Debug for Earlier<'_> {
    fn fmt(&self, to: &mut fmt::Formatter) -> fmt::Result {
        let linduvar::Tree { state, disciplines } = self.0;
        write!(to, "{:?} with {disciplines:?}", plain::read(state))
    }
}
