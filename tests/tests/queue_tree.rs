//! Makes the same calls to the Rattle library and to the second
//! implementation, and compares the answers and the states. The first
//! difference ends the run.

use linduvar::queue;
use linduvar_tests::generate;
use linduvar_tests::kinds::Kinds;
use linduvar_tests::misread;
use linduvar_tests::plain;
use linduvar_tests::queue_tree::{
    self, QueueTree, Refusal, Step, Taken, MOST_ENTRIES, MOST_PACKETS,
};
use linduvar_tests::random::{seeded, Random};
use linduvar_tests::rounds;
use linduvar_tests::states::{
    any_path, any_topology, any_tree, damage, dressed, Course, Habits, DAMAGES, DRESSES, LIMITS,
    PATHS,
};
use std::fmt;

const OPENINGS: usize = 10_000;
const SHORT_LISTS: usize = 800;
const LONG_LISTS: usize = 10;
const STATES: usize = 2_000;
const DAMAGED_STATES: usize = 9_000;
const MANY_ROUNDS: usize = 1_000;

/// Each answer and each kind of path or state must be met this often.
const OFTEN_ENOUGH: usize = 50;

fn main() {
    seeded(|seed| {
        examples();
        long_strings();
        let mut comparison = Comparison::new(seed);
        openings(&mut comparison);
        every_short_list(&mut comparison);
        random_lists(&mut comparison);
        states(&mut comparison);
        damaged_states(&mut comparison);
        many_rounds(&mut comparison);
        comparison.print();
        comparison.require_everything();
    });
}

/// The paper's example, its script on both trees, and some worked by hand.
fn examples() {
    // Two packets down child 1: the later leaves first.
    let mut tree = Literal::open(&[1, 0], 2);
    tree.push(&[(1, 1)], 9, 100, (0, 1));
    tree.push(&[(1, 4)], 2, 200, (0, 2));
    tree.pop((0, 200), &[(0, 1, 1), (1, 0, 2)]);
    tree.pop((0, 100), &[(0, 1, 4), (1, 0, 9)]);
    tree.pop((16, 0), &[]);

    // The script of gatewalk, on the source.
    let mut tree = Literal::open(&[3, 0, 0, 0], 2);
    tree.push(&[(3, 5)], 0, 0x0A, (0, 1));
    tree.push(&[(1, 5)], 0, 0x0B, (0, 2));
    tree.push(&[(2, 3)], 0, 0x0C, (15, 1));
    tree.pop((0, 0x0A), &[(0, 3, 5), (3, 0, 0)]);
    tree.push(&[(2, 3)], 0, 0x0C, (0, 2));
    tree.pop((0, 0x0C), &[(0, 2, 3), (2, 0, 0)]);
    tree.pop((0, 0x0B), &[(0, 1, 5), (1, 0, 0)]);
    tree.pop((16, 0), &[]);
    // And on the chip, where the paths are carried over.
    let mut tree = Literal::open(&[2, 2, 0, 0, 0], 2);
    tree.push(&[(2, 5)], 0, 0x0A, (0, 1));
    tree.push(&[(1, 5), (1, 5)], 0, 0x0B, (0, 2));
    tree.push(&[(1, 3), (2, 3)], 0, 0x0C, (15, 1));
    tree.pop((0, 0x0A), &[(0, 2, 5), (4, 0, 0)]);
    tree.push(&[(1, 3), (2, 3)], 0, 0x0C, (0, 2));
    tree.pop((0, 0x0C), &[(0, 1, 3), (1, 2, 3), (3, 0, 0)]);
    tree.pop((0, 0x0B), &[(0, 1, 5), (1, 1, 5), (2, 0, 0)]);
    tree.pop((16, 0), &[]);

    // Ties go by arrival, at the leaf and above it.
    let mut tree = Literal::open(&[2, 0, 0], 256);
    tree.push(&[(2, 7)], 7, 4, (0, 1));
    tree.push(&[(1, 7)], 7, 3, (0, 2));
    tree.push(&[(2, 7)], 7, 2, (0, 3));
    tree.push(&[(2, 7)], 6, 1, (0, 4));
    for (packet, leaf, leaf_rank) in [(1, 2, 6), (3, 1, 7), (4, 2, 7), (2, 2, 7)] {
        tree.pop((0, packet), &[(0, leaf, 7), (leaf, 0, leaf_rank)]);
    }
    tree.pop((16, 0), &[]);

    // Paths at fault; 13 goes before 14, and both before 15.
    let mut tree = Literal::open(&[2, 1, 0, 0], 1);
    for full in [false, true] {
        tree.push(&[(0, 1)], 0, 0, (13, 0));
        tree.push(&[(3, 1)], 0, 0, (13, 0));
        tree.push(&[(255, 1)], 0, 0, (13, 0));
        tree.push(&[(2, 1), (1, 1)], 0, 0, (13, 0));
        tree.push(&[(1, 1), (2, 1)], 0, 0, (13, 0));
        tree.push(&[(1, 1), (1, 1), (1, 1)], 0, 0, (13, 0));
        tree.push(&[(1, 1); 9], 0, 0, (13, 0));
        tree.push(&[], 0, 0, (14, 0));
        tree.push(&[(1, 1)], 0, 0, (14, 0));
        if !full {
            tree.pop((16, 0), &[]);
            tree.push(&[(1, 1), (1, 1)], 0, u32::MAX, (0, 1));
        }
    }
    tree.push(&[(2, 1)], 0, 0, (15, 1));
    tree.push(&[(2, 1)], 0, 0, (15, 2));
    tree.pop((0, u32::MAX), &[(0, 1, 1), (1, 1, 1), (2, 0, 0)]);

    // One leaf and nothing else.
    let mut tree = Literal::open(&[0], 3);
    tree.push(&[(1, 0)], 0, 9, (13, 0));
    tree.push(&[], u64::MAX, 1, (0, 1));
    tree.push(&[], 0, 2, (0, 2));
    tree.push(&[], 1 << 63, 3, (0, 3));
    for (packet, rank) in [(2, 0), (3, 1 << 63), (1, u64::MAX)] {
        tree.pop((0, packet), &[(0, 0, rank)]);
    }

    // The deepest path has 8 steps, and a ninth is refused.
    let mut tree = Literal::open(&[1, 1, 1, 1, 1, 1, 1, 1, 0], 1);
    tree.push(&[(1, 0); 9], 0, 5, (13, 0));
    tree.push(&[(1, 0); 7], 0, 5, (14, 0));
    tree.push(&[(1, 3); 8], 4, 5, (0, 1));
    let down = [0, 1, 2, 3, 4, 5, 6, 7].map(|node| (node, 1, 3));
    tree.pop((0, 5), &[&down[..], &[(8, 0, 4)]].concat());
    println!("examples: as the paper has them");
}

/// A tree on Rattle's side alone, for answers that are known.
struct Literal {
    state: linduvar::State,
}

impl Literal {
    fn open(topology: &[u8], limit: usize) -> Literal {
        let opened = queue::open(topology, limit);
        assert_eq!(opened.refusal, 0);
        Literal {
            state: opened.state,
        }
    }

    fn push(&mut self, path: &[(u8, u64)], leaf_rank: u64, packet: u32, answer: (u8, u32)) {
        let steps: Vec<Step> = path
            .iter()
            .map(|&(child, rank)| Step { child, rank })
            .collect();
        let path = linduvar::Path::new(&steps, leaf_rank);
        let rattle = queue::push(&self.state, &path, packet);
        let met = (rattle.refusal, rattle.value);
        assert_eq!(met, answer, "push of {packet} along {path:?}");
        self.state = rattle.state;
    }

    fn pop(&mut self, answer: (u8, u32), way: &[(u8, u8, u64)]) {
        let linduvar::Popped {
            answer: rattle,
            way: met,
        } = queue::pop(&self.state);
        assert_eq!((rattle.refusal, rattle.value), answer, "pop");
        let way: Vec<Taken> = way
            .iter()
            .map(|&(node, child, rank)| Taken { node, child, rank })
            .collect();
        assert_eq!(met, plain::way(&way), "the way of a pop");
        self.state = rattle.state;
    }
}

/// Strings far beyond any limit still get an answer.
fn long_strings() {
    let long = vec![1; 1_000_000];
    assert_eq!(queue::open(&long, 0).refusal, 5);
    println!("long strings: answered");
}

/// Topologies, valid and damaged, at limits within and without.
fn openings(comparison: &mut Comparison) {
    for _ in 0..OPENINGS {
        let random = &mut comparison.random;
        let topology = generate::any(random);
        let any = random.within(0..=300);
        let limit = random.pick(&[0, 1, 256, 257, 511, 65_536, 65_537, usize::MAX, any, any]);
        comparison.open(&topology, limit);
    }
}

/// Every list of up to 4 calls on small trees with limit 3 and two ranks, of
/// which the second is the higher one and has the lower low word.
fn every_short_list(comparison: &mut Comparison) {
    for (topology, paths) in [
        (&[0][..], &[&[][..]][..]),
        (&[1, 0], &[&[1]]),
        (&[2, 0, 0], &[&[1], &[2]]),
        (&[1, 1, 0], &[&[1, 1]]),
    ] {
        let mut calls = vec![Call::Pop];
        for path in paths {
            for ranks in 0..2 << path.len() {
                let rank = |bit: usize| [1, 1 << 32][ranks >> bit & 1];
                let steps: Vec<Step> = path
                    .iter()
                    .zip(0..)
                    .map(|(&child, bit)| Step {
                        child,
                        rank: rank(bit),
                    })
                    .collect();
                calls.push(Call::Push {
                    path: linduvar::Path::new(&steps, rank(path.len())),
                    packet: calls.len() as u32,
                });
            }
        }
        let opened = comparison.open(topology, 3).expect("a valid tree");
        every_list(comparison, &opened, &calls, 4);
    }
}

fn every_list(comparison: &mut Comparison, sides: &Sides, calls: &[Call], longest: usize) {
    for call in calls {
        let mut sides = sides.clone();
        comparison.call(&mut sides, call);
        if longest > 1 {
            every_list(comparison, &sides, calls, longest - 1);
        }
    }
}

/// Random lists of calls from an opening on.
fn random_lists(comparison: &mut Comparison) {
    for list in 0..SHORT_LISTS + LONG_LISTS {
        let random = &mut comparison.random;
        let (limit, calls) = match list {
            0..SHORT_LISTS => (random.pick(&LIMITS), 40),
            _ => ([255, 256][list % 2], 700),
        };
        let topology = any_topology(random);
        let habits = Habits::any(random);
        let near_the_end = random.one_in(3).then(|| u32::MAX - random.below(4) as u32);
        let mut sides = comparison.open(&topology, limit).expect("a valid tree");
        if let Some(refused) = near_the_end {
            sides.plain.refused = refused;
            sides = Sides::read(sides.plain).expect("a well formed state");
        }
        let mut course = Course::Filling;
        for _ in 0..calls {
            let push = course.pushes(sides.tree.held(), limit, &mut comparison.random);
            comparison.any_call(&mut sides, &habits, push);
        }
    }
}

/// Calls on states that no opening led to, but that are well formed.
fn states(comparison: &mut Comparison) {
    for _ in 0..STATES {
        let random = &mut comparison.random;
        let habits = Habits::any(random);
        let tree = any_tree(random, &habits);
        let mut state = tree.state();
        let kind = random.pick(&DRESSES);
        if kind == "limit as many as held" {
            state.limit = tree.held().max(1);
        }
        let plain = dressed(&state, kind, random);
        let mut sides = Sides::read(plain).expect("a well formed state");
        comparison.kinds.meet(kind);
        let used: usize = state.queues.iter().map(Vec::len).sum();
        if used == MOST_ENTRIES {
            comparison.kinds.meet("all entries used");
        }
        comparison.compare_state(&sides, format_args!("on a state as given"));
        for _ in 0..3 {
            let push = comparison.random.one_in(2);
            comparison.any_call(&mut sides, &habits, push);
        }
    }
}

/// States with one clause of well-formedness broken, where that worked.
fn damaged_states(comparison: &mut Comparison) {
    for _ in 0..DAMAGED_STATES {
        let random = &mut comparison.random;
        let habits = Habits::any(random);
        let tree = any_tree(random, &habits);
        let dress = random.pick(&DRESSES);
        let mut plain = dressed(&tree.state(), dress, random);
        let kind = random.pick(&DAMAGES);
        if damage(&mut plain, kind, random).is_none() {
            continue;
        }
        match Sides::read(plain) {
            Err(refusal) => {
                assert_eq!(refusal, Refusal::IllFormed);
                comparison.kinds.meet(kind);
                let (path, ..) = any_path(tree.topology(), &habits, &mut comparison.random);
                comparison.refuses_all(&plain, &path, kind);
            }
            Ok(mut sides) => {
                comparison.kinds.meet("damage that did no harm");
                comparison.compare_state(&sides, format_args!("after {kind}"));
                comparison.any_call(&mut sides, &habits, true);
                comparison.any_call(&mut sides, &habits, false);
            }
        }
    }
}

/// The loop of the benchmark, with and without refusals in it.
fn many_rounds(comparison: &mut Comparison) {
    let mut altered = 0;
    for _ in 0..MANY_ROUNDS {
        let random = &mut comparison.random;
        let habits = Habits::any(random);
        let tree = any_tree(random, &habits);
        let kind = random.pick(&DRESSES);
        let sides = Sides::read(dressed(&tree.state(), kind, random)).expect("a well formed state");
        let (first, ..) = any_path(tree.topology(), &habits, random);
        let (second, ..) = any_path(tree.topology(), &habits, random);
        let rounds = random.within(0..=40) as u32;

        let mut after = sides.clone();
        after.plain = rounds::queue(&sides.plain, &first, &second, rounds);
        let paths = [
            (first.steps(), first.leaf_rank),
            (second.steps(), second.leaf_rank),
        ];
        queue_tree::rounds(&mut after.tree, paths, rounds);
        let earlier = Earlier(&sides.plain);
        let question = format_args!("{rounds} rounds along {paths:?} on {earlier:?}");
        comparison.compare_state(&after, question);
        altered += usize::from(sides.tree.state() != after.tree.state());
    }
    assert!(
        altered >= OFTEN_ENOUGH,
        "only {altered} states were altered"
    );
    println!("{MANY_ROUNDS} times many rounds, {altered} of which altered the state");
}

#[derive(Clone, Debug)]
enum Call {
    Push { path: linduvar::Path, packet: u32 },
    Pop,
}

/// One tree on both sides: as Rattle has it in plain numbers, and as Rust has
/// it.
#[derive(Clone)]
struct Sides {
    plain: linduvar::State,
    tree: QueueTree,
}

impl Sides {
    fn read(plain: linduvar::State) -> Result<Sides, Refusal> {
        let state = plain::read(&plain).ok_or(Refusal::IllFormed)?;
        let tree = QueueTree::from_state(&state)?;
        Ok(Sides { plain, tree })
    }
}

/// A state in plain numbers, read only when a difference is printed.
struct Earlier<'a>(&'a linduvar::State);

impl fmt::Debug for Earlier<'_> {
    fn fmt(&self, to: &mut fmt::Formatter) -> fmt::Result {
        plain::read(self.0).fmt(to)
    }
}

/// Makes the calls on both sides, and counts what was met.
struct Comparison {
    seed: u64,
    random: Random,
    calls: usize,
    answers: [usize; 19],
    kinds: Kinds,
}

const ANSWERS: [usize; 12] = [0, 1, 2, 3, 4, 5, 13, 14, 15, 16, 17, 18];

/// What is worth to be met besides the kinds of paths and states.
const OCCASIONS: [&str; 28] = [
    "accepted 0 steps down",
    "accepted 1 steps down",
    "accepted 2 steps down",
    "accepted 3 steps down",
    "accepted 4 steps down",
    "accepted 5 steps down",
    "accepted 6 steps down",
    "accepted 7 steps down",
    "accepted 8 steps down",
    "accepted through an eighth child",
    "departed 0 steps down",
    "departed 1 steps down",
    "departed 2 steps down",
    "departed 3 steps down",
    "departed 4 steps down",
    "departed 5 steps down",
    "departed 6 steps down",
    "departed 7 steps down",
    "departed 8 steps down",
    "full at a limit of 1",
    "full at a limit of 2",
    "full at a limit of 255",
    "full at a limit of 256",
    "path at fault when full",
    "the count reaches its end",
    "the count stays at its end",
    "a limit of 256 is reached",
    "all entries used",
];

/// Ranks that must be met at a leaf: those around 2^32, and the largest.
const RANKS: [u64; 6] = [
    (1 << 32) - 2,
    (1 << 32) - 1,
    1 << 32,
    (1 << 32) + 1,
    (1 << 32) + 2,
    u64::MAX,
];

impl Comparison {
    fn new(seed: u64) -> Comparison {
        Comparison {
            seed,
            random: Random::new(seed),
            calls: 0,
            answers: [0; 19],
            kinds: Kinds::default(),
        }
    }

    fn agree<T: PartialEq + fmt::Debug>(
        &self,
        question: fmt::Arguments,
        before: Option<&linduvar::State>,
        rattle: T,
        rust: T,
    ) {
        if rattle != rust {
            let before = before.map(Earlier);
            panic!(
                "a difference: {question}\n  seed   {}\n  state  {before:?}\n  \
                 Rattle {rattle:?}\n  Rust   {rust:?}",
                self.seed
            );
        }
    }

    fn meet(&mut self, answer: u8) {
        self.answers[usize::from(answer)] += 1;
        self.calls += 1;
    }

    fn open(&mut self, topology: &[u8], limit: usize) -> Option<Sides> {
        let rattle = queue::open(topology, limit);
        let opened = QueueTree::open(topology, limit);
        let rust = match &opened {
            Ok(_) => 0,
            Err(refusal) => refusal.number(),
        };
        let question = format_args!("opening {topology:?}, limit {limit}");
        self.agree(question, None, rattle.refusal, rust);
        self.meet(rust);
        let plain = rattle.state;
        let state = match &opened {
            Ok(tree) => tree.state(),
            Err(_) => queue_tree::State::NONE,
        };
        let question = format_args!("state, {question}");
        self.agree(question, None, plain, plain::state(&state));
        match opened {
            Ok(tree) => {
                let sides = Sides { plain, tree };
                self.compare_state(&sides, format_args!("after {question}"));
                Some(sides)
            }
            Err(_) => {
                // No call serves what an opening that was refused gave.
                self.refuses_all(&plain, &linduvar::Path::new(&[], 0), "a refused opening");
                None
            }
        }
    }

    /// A push along a path of any kind, or a pop.
    fn any_call(&mut self, sides: &mut Sides, habits: &Habits, push: bool) {
        if !push {
            self.call(sides, &Call::Pop);
            return;
        }
        let random = &mut self.random;
        let (path, kind, answer) = any_path(sides.tree.topology(), habits, random);
        let packet = habits.packet(random);
        if self.call(sides, &Call::Push { path, packet }) == answer {
            self.kinds.meet(kind);
        }
    }

    /// Makes one call on both sides and returns 0 or the refusal.
    fn call(&mut self, sides: &mut Sides, call: &Call) -> u8 {
        let before = sides.plain;
        let held = sides.tree.held();
        let refused = sides.tree.refusals();
        let limit = sides.tree.limit();

        let linduvar::Popped { answer, way } = match call {
            Call::Push { path, packet } => linduvar::Popped {
                answer: queue::push(&before, path, *packet),
                way: plain::way(&[]),
            },
            Call::Pop => queue::pop(&before),
        };
        let linduvar::Answer { refusal, value, .. } = answer;
        sides.plain = answer.state;
        let rust = make(&mut sides.tree, call);
        self.agree(
            format_args!("{call:?}"),
            Some(&before),
            (refusal, value, way),
            rust,
        );
        self.meet(refusal);

        // A refusal leaves every entry, and all else but the count of a full tree.
        if refusal != 0 {
            let mut expected = plain::rewritten(&before);
            if refusal == 15 {
                expected.refused = value;
            }
            let same = sides.plain == expected;
            let question = format_args!("{call:?}, refused: is the state as before");
            self.agree(question, Some(&before), same, true);
        }
        let earlier = Earlier(&before);
        self.compare_state(sides, format_args!("after {call:?} on {earlier:?}"));

        match (refusal, call) {
            (0, Call::Push { path, .. }) => {
                self.kinds
                    .meet(&format!("accepted {} steps down", path.count));
                if path.count > 0 && path.steps[0].child == 8 {
                    self.kinds.meet("accepted through an eighth child");
                }
                if RANKS.contains(&path.leaf_rank) {
                    self.kinds.meet(&format!("leaf rank {}", path.leaf_rank));
                }
                for queue in sides.tree.state().queues {
                    for kind in misread::of_queue(&queue) {
                        self.kinds.meet(&kind);
                    }
                }
            }
            (0, Call::Pop) => {
                self.kinds
                    .meet(&format!("departed {} steps down", way.count - 1));
            }
            (15, _) => self.kinds.meet(&format!("full at a limit of {limit}")),
            _ => {}
        }
        match refusal {
            13 | 14 if held == limit => self.kinds.meet("path at fault when full"),
            15 if refused == u32::MAX => self.kinds.meet("the count stays at its end"),
            15 if refused == u32::MAX - 1 => self.kinds.meet("the count reaches its end"),
            0 if sides.tree.held() == MOST_PACKETS => self.kinds.meet("a limit of 256 is reached"),
            _ => {}
        }
        refusal
    }

    /// What is held, what was refused, and every queue.
    fn compare_state(&self, sides: &Sides, question: fmt::Arguments) {
        let plain = Some(&sides.plain);
        let count = |value: u32| linduvar::Amount { refusal: 0, value };
        let held = count(sides.tree.held() as u32);
        let rattle = queue::held(&sides.plain);
        self.agree(format_args!("held, {question}"), plain, rattle, held);
        let refusals = count(sides.tree.refusals());
        let rattle = queue::refusals(&sides.plain);
        self.agree(
            format_args!("refusals, {question}"),
            plain,
            rattle,
            refusals,
        );
        let state = Some(sides.tree.state());
        let rattle = plain::read(&sides.plain);
        self.agree(format_args!("state, {question}"), plain, rattle, state);
    }

    /// Every call on an ill formed state is answered by 18, whatever else is
    /// at fault, and alters nothing; so do rounds of calls.
    fn refuses_all(&mut self, before: &linduvar::State, path: &linduvar::Path, kind: &str) {
        for (call, rattle) in [
            ("held", queue::held(before)),
            ("refusals", queue::refusals(before)),
        ] {
            let question = format_args!("{call} on an ill formed state: {kind}");
            let eighteen = linduvar::Amount {
                refusal: 18,
                value: 0,
            };
            self.agree(question, Some(before), rattle, eighteen);
            self.meet(18);
        }
        let popped = queue::pop(before);
        let question = format_args!("the way of a pop on an ill formed state: {kind}");
        self.agree(question, Some(before), popped.way, plain::way(&[]));
        for (call, rattle) in [
            ("push", queue::push(before, path, 0)),
            ("pop", popped.answer),
        ] {
            let question = format_args!("{call} on an ill formed state: {kind}");
            let same = rattle.state == plain::rewritten(before);
            let answer = (rattle.refusal, rattle.value, same);
            self.agree(question, Some(before), answer, (18, 0, true));
            self.meet(18);
        }
        let after_rounds = rounds::queue(before, path, path, 1);
        let question = format_args!("is it as before after a round on an ill formed state: {kind}");
        self.agree(
            question,
            Some(before),
            after_rounds == plain::rewritten(before),
            true,
        );
    }

    fn print(&self) {
        let mut line = String::new();
        for answer in ANSWERS {
            line += &format!("{answer}: {}  ", self.answers[answer]);
        }
        println!("{} calls; how many met each answer:", self.calls);
        println!("  {}", line.trim_end());
        println!("how often each kind of path, state, damage and occasion was met:");
        self.kinds.print();
    }

    fn require_everything(&self) {
        for answer in ANSWERS {
            let met = self.answers[answer];
            assert!(met >= OFTEN_ENOUGH, "the answer {answer}: only {met} times");
        }
        let paths = PATHS.iter().map(|(kind, _)| kind);
        let states = DRESSES.iter().chain(&DAMAGES);
        for rank in RANKS {
            self.kinds
                .require(&format!("leaf rank {rank}"), OFTEN_ENOUGH);
        }
        let occasions = OCCASIONS.iter().chain(&misread::QUEUE_KINDS);
        for kind in paths.chain(states).chain(occasions) {
            self.kinds.require(kind, OFTEN_ENOUGH);
        }
    }
}

/// Makes the call on this side; its answer's number and value, and the way of a
/// pop.
fn make(tree: &mut QueueTree, call: &Call) -> (u8, u32, linduvar::Way) {
    let answer = match call {
        Call::Push { path, packet } => tree
            .push(path.steps(), path.leaf_rank, *packet)
            .map(|held| (held as u32, Vec::new())),
        Call::Pop => tree
            .pop()
            .map(|departure| (departure.packet, departure.way)),
    };
    let (number, value, way) = match answer {
        Ok((value, way)) => (0, value, way),
        Err(Refusal::Full(count)) => (15, count, Vec::new()),
        Err(refusal) => (refusal.number(), 0, Vec::new()),
    };
    (number, value, plain::way(&way))
}
