//! Puts the same questions to the Rattle library and to the second
//! implementation. The first difference ends the run.

use linduvar_tests::generate;
use linduvar_tests::random::{seeded, Random};
use linduvar_tests::topology::{
    branch, Topology, MOST_CHILDREN, MOST_STEPS_DOWN, SOURCE_NODES, TARGET_NODES,
};
use std::fmt;

const RANDOM_STRINGS: usize = 200_000;

/// Each answer, and each kind of tree at a limit, must be met this often.
const OFTEN_ENOUGH: usize = 100;

fn main() {
    seeded(|seed| {
        examples(seed);
        long_strings();
        every_short_string(seed);
        random_strings(seed);
    });
}

/// The paper's examples, and some worked by hand.
fn examples(seed: u64) {
    let mut comparison = Comparison::new(seed);
    let mut read = |bytes: &[u8], limit: usize, answer: u8| {
        comparison.read(bytes, limit);
        assert_eq!(
            linduvar::topology::read(bytes, limit),
            answer,
            "{bytes:?} to {limit}"
        );
    };

    for limit in [SOURCE_NODES, TARGET_NODES] {
        read(&[], limit, 1);
        read(&[2, 0], limit, 1);
        read(&[0, 0], limit, 2);
        read(&[9], limit, 4);
        read(&[1, 1, 1, 1, 1, 1, 1, 1, 0], limit, 0);
        read(&[1, 1, 1, 1, 1, 1, 1, 1, 1, 0], limit, 5);
    }

    // One node more or less than the limit.
    read(&[0], 0, 3);
    read(&[2, 0, 0], 3, 0);
    read(&[2, 0, 0], 2, 3);

    // Two faults at one byte: the order is 2, 3, 4, 5.
    read(&[0, 0], 1, 2);
    read(&[0, 9], 64, 2);
    read(&[3, 0, 0, 9], 3, 3);
    read(&[1, 1, 1, 1, 1, 1, 1, 1, 1, 0], 9, 3);
    read(&[1, 1, 1, 1, 1, 1, 1, 1, 1, 9], 64, 4);

    // Node 0 has the children 1 and 3, node 1 has the child 2.
    let bytes = &[2, 1, 0, 0];
    comparison.every_node(bytes);
    assert_eq!(linduvar::topology::branch(bytes, 0), (0, 4));
    assert_eq!(linduvar::topology::branch(bytes, 1), (0, 2));
    assert_eq!(linduvar::topology::branch(bytes, 3), (0, 1));
    assert_eq!(linduvar::topology::branch(bytes, 4), (19, 0));
    assert_eq!(linduvar::topology::branch(&[2, 0], 4), (1, 0));
    assert_eq!(linduvar::topology::branch_byte(bytes, 1, 0), 1);
    assert_eq!(linduvar::topology::branch_byte(bytes, 1, 1), 0);
    assert_eq!(linduvar::topology::branch_byte(bytes, 1, 2), 255);
    println!("examples: as the paper has them");
}

/// Strings far beyond any limit still get an answer.
fn long_strings() {
    const LENGTH: usize = 1_000_000;
    let chain = vec![1; LENGTH];
    assert_eq!(linduvar::topology::read(&chain, TARGET_NODES), 5);

    let crowd = vec![255; LENGTH];
    assert_eq!(linduvar::topology::read(&crowd, TARGET_NODES), 4);
    println!("long strings: answered");
}

/// Every string of up to 6 bytes from 0 to 4.
fn every_short_string(seed: u64) {
    const LONGEST: u32 = 6;
    const BYTES: usize = 5;
    let mut comparison = Comparison::new(seed);
    for length in 0..=LONGEST {
        for code in 0..BYTES.pow(length) {
            // What lies behind the string would complete many a tree.
            let mut memory = [0; LONGEST as usize + 1];
            let bytes = &mut memory[..length as usize];
            let mut rest = code;
            for byte in bytes.iter_mut() {
                *byte = (rest % BYTES) as u8;
                rest /= BYTES;
            }
            for limit in [1, 3, SOURCE_NODES, TARGET_NODES] {
                comparison.read(bytes, limit);
                comparison.debts(bytes, limit);
            }
            comparison.every_node(bytes);
            comparison.next_input();
        }
    }
    comparison.print("short strings");
}

/// Random strings, valid and damaged.
fn random_strings(seed: u64) {
    let mut random = Random::new(seed);
    let mut comparison = Comparison::new(seed);
    let mut at_limits = AtLimits::default();
    for _ in 0..RANDOM_STRINGS {
        let bytes = generate::any(&mut random);
        comparison.read(&bytes, SOURCE_NODES);
        comparison.read(&bytes, TARGET_NODES);
        comparison.debts(&bytes, SOURCE_NODES);
        comparison.debts(&bytes, TARGET_NODES);
        if random.one_in(4) {
            comparison.read(&bytes, random.within(0..=130));
        }
        if random.one_in(16) {
            comparison.read(&bytes, usize::MAX);
        }
        if let Ok(topology) = Topology::read(&bytes, TARGET_NODES) {
            at_limits.count(&topology);
            comparison.every_node(&bytes);
        }
        comparison.some_nodes(&bytes, &mut random);
        comparison.next_input();
    }
    comparison.print("random strings");
    at_limits.print();
    comparison.require_every_answer();
    at_limits.require_every_kind();
}

/// A number that may stand for a node: mostly up to just past `last`, now and
/// then far beyond.
fn node_near(last: usize, random: &mut Random) -> usize {
    if random.one_in(50) {
        usize::MAX - random.below(2)
    } else {
        random.within(0..=last + 2)
    }
}

/// Asks both sides, and counts the inputs at which each answer was met.
struct Comparison {
    seed: u64,
    inputs: usize,
    read_answers: Answers,
    branch_answers: Answers,
}

impl Comparison {
    fn new(seed: u64) -> Comparison {
        Comparison {
            seed,
            inputs: 0,
            read_answers: Answers::default(),
            branch_answers: Answers::default(),
        }
    }

    fn next_input(&mut self) {
        self.inputs += 1;
        self.read_answers.next_input();
        self.branch_answers.next_input();
    }

    fn agree<T: PartialEq + fmt::Debug>(
        &self,
        question: fmt::Arguments,
        bytes: &[u8],
        rattle: T,
        rust: T,
    ) {
        if rattle != rust {
            panic!(
                "a difference: {question}\n  seed   {}\n  bytes  {bytes:?}\n  \
                 Rattle {rattle:?}\n  Rust   {rust:?}",
                self.seed
            );
        }
    }

    fn read(&mut self, bytes: &[u8], limit: usize) {
        let rattle = linduvar::topology::read(bytes, limit);
        let rust = match Topology::read(bytes, limit) {
            Ok(_) => 0,
            Err(refusal) => refusal as u8,
        };
        self.agree(format_args!("read, limit {limit}"), bytes, rattle, rust);
        self.read_answers.meet(rust);
    }

    /// Reads ever more of the bytes. As long as each is accepted, the tree is
    /// complete exactly where the debt is 0: one plus the child counts read so
    /// far, less the number of bytes read. The first byte at fault decides.
    fn debts(&self, bytes: &[u8], limit: usize) {
        let whole = linduvar::topology::read(bytes, limit);
        let mut debt = 1;
        for length in 0..=bytes.len() {
            let part = linduvar::topology::read(&bytes[..length], limit);
            let expected = if part > 1 { whole } else { u8::from(debt != 0) };
            let question = format_args!("read {length} bytes, limit {limit}");
            self.agree(question, bytes, part, expected);
            if part > 1 {
                return;
            }
            debt += bytes.get(length).map_or(0, |&byte| i64::from(byte) - 1);
        }
    }

    /// The branch under `node`: its refusal, its length and its bytes.
    fn branch(&mut self, bytes: &[u8], node: usize) {
        let (refusal, branch) = match branch(bytes, node) {
            Ok(branch) => (0, branch),
            Err(refusal) => (refusal as u8, Vec::new()),
        };
        let question = format_args!("refusal and length of branch {node}");
        let rattle = linduvar::topology::branch(bytes, node);
        self.agree(question, bytes, rattle, (refusal, branch.len()));
        self.branch_answers.meet(refusal);

        for at in (0..=branch.len()).chain([usize::MAX]) {
            let question = format_args!("byte {at} of branch {node}");
            let rattle = linduvar::topology::branch_byte(bytes, node, at);
            let rust = branch.get(at).copied().unwrap_or(255);
            self.agree(question, bytes, rattle, rust);
        }
    }

    /// Every node, and two that are not there.
    fn every_node(&mut self, bytes: &[u8]) {
        for node in 0..bytes.len() + 2 {
            self.branch(bytes, node);
        }
    }

    /// A few nodes, there or not.
    fn some_nodes(&mut self, bytes: &[u8], random: &mut Random) {
        for _ in 0..4 {
            self.branch(bytes, node_near(bytes.len(), random));
        }
    }

    fn print(&self, what: &str) {
        println!("{what}: {}; how many met each answer:", self.inputs);
        println!("  read    {}", self.read_answers.line(&READ_ANSWERS));
        println!("  branch  {}", self.branch_answers.line(&BRANCH_ANSWERS));
    }

    fn require_every_answer(&self) {
        self.read_answers.require("read", &READ_ANSWERS);
        self.branch_answers.require("branch", &BRANCH_ANSWERS);
    }
}

const READ_ANSWERS: [u8; 6] = [0, 1, 2, 3, 4, 5];
const BRANCH_ANSWERS: [u8; 7] = [0, 1, 2, 3, 4, 5, 19];

/// For each answer from 0 to 19, the number of inputs that met it.
#[derive(Default)]
struct Answers {
    inputs: [usize; 20],
    met_now: [bool; 20],
}

impl Answers {
    fn meet(&mut self, answer: u8) {
        self.met_now[usize::from(answer)] = true;
    }

    fn next_input(&mut self) {
        for (inputs, met) in self.inputs.iter_mut().zip(&mut self.met_now) {
            *inputs += usize::from(*met);
            *met = false;
        }
    }

    fn line(&self, answers: &[u8]) -> String {
        let mut line = String::new();
        for &answer in answers {
            line += &format!("{answer}: {}  ", self.inputs[usize::from(answer)]);
        }
        line.trim_end().to_string()
    }

    fn require(&self, function: &str, answers: &[u8]) {
        for &answer in answers {
            let met = self.inputs[usize::from(answer)];
            assert!(
                met >= OFTEN_ENOUGH,
                "only {met} inputs met the answer {answer} of {function}"
            );
        }
    }
}

/// The number of valid topologies that reach a limit.
#[derive(Default)]
struct AtLimits {
    source_nodes: usize,
    target_nodes: usize,
    deep: usize,
    wide: usize,
}

impl AtLimits {
    fn count(&mut self, topology: &Topology) {
        let nodes = topology.node_count();
        let deep = (0..nodes).any(|node| topology.depth(node) == MOST_STEPS_DOWN);
        let wide = (0..nodes).any(|node| topology.child_count(node) == MOST_CHILDREN);
        self.source_nodes += usize::from(nodes == SOURCE_NODES);
        self.target_nodes += usize::from(nodes == TARGET_NODES);
        self.deep += usize::from(deep);
        self.wide += usize::from(wide);
    }

    fn print(&self) {
        println!(
            "  valid with {SOURCE_NODES} nodes: {}, {TARGET_NODES} nodes: {}, \
             depth {MOST_STEPS_DOWN}: {}, {MOST_CHILDREN} children: {}",
            self.source_nodes, self.target_nodes, self.deep, self.wide
        );
    }

    fn require_every_kind(&self) {
        for met in [self.source_nodes, self.target_nodes, self.deep, self.wide] {
            assert!(met >= OFTEN_ENOUGH, "too few valid topologies at a limit");
        }
    }
}
