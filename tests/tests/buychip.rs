//! Runs the program buychip and the second implementation on the same scripts
//! and compares what they print. The first difference ends the run.

use linduvar_tests::buychip::{can_be_loaded, table};
use linduvar_tests::commands::{limit, source_node, target_node, Command, OPEN};
use linduvar_tests::gatewalk::bought;
use linduvar_tests::generate::{self, steep};
use linduvar_tests::pairs::drawing;
use linduvar_tests::paper::{self, text};
use linduvar_tests::random::{seeded, Random};
use linduvar_tests::regular::{complete, size, CHILDREN};
use linduvar_tests::samples;
use linduvar_tests::script::{outcomes, Outcome, SCRIPT_BYTES};
use linduvar_tests::scripts::{self, LONG_KINDS};
use linduvar_tests::topology::{Topology, SOURCE_NODES, TARGET_NODES};
use std::collections::BTreeMap;

const SCRIPTS: usize = 1_500;
const DRAWINGS: usize = 3_000;

/// Each case must be met this often.
const OFTEN_ENOUGH: usize = 3;

fn main() {
    seeded(|seed| {
        let mut comparison = Comparison::default();
        examples(&mut comparison);
        marks();
        for (script, _) in paper::scripts() {
            comparison.script(&script);
        }
        for path in samples::all() {
            comparison.script(&samples::read(&path).script);
        }
        for script in scripts::crowded() {
            comparison.script(&script);
        }
        println!("the paper's scripts, the samples and crowded drawings: no difference");
        let mut random = Random::new(seed);
        for _ in 0..SCRIPTS {
            comparison.script(&scripts::any(&mut random).1);
        }
        for kind in LONG_KINDS {
            comparison.script(&scripts::over_long(kind, &mut random));
        }
        for _ in 0..DRAWINGS {
            comparison.script(&drawing_alone(&mut random));
        }
        comparison.print();
        comparison.require_everything();
    });
}

/// Worked by hand: a source with or without a limit and an 04, and refusals.
fn examples(comparison: &mut Comparison) {
    let three = [1, 3, 1, 0, 1, 0, 1, 0];
    let lines = "d 2: depth 2, 7 nodes, 4 leaves\n\
                 d 3: depth 1, 4 nodes, 3 leaves\n\
                 d 4: depth 1, 5 nodes, 4 leaves\n\
                 d 5: depth 1, 6 nodes, 5 leaves\n\
                 d 6: depth 1, 7 nodes, 6 leaves\n\
                 d 7: depth 1, 8 nodes, 7 leaves\n\
                 d 8: depth 1, 9 nodes, 8 leaves\n";
    let mut prints = |script: &[u8], expected: &str| {
        assert_eq!(table(script), expected, "{script:02X?}");
        comparison.script(script);
    };
    for rest in [&[][..], &[4], &[4, 4], &[4, 9], &[2, 9, 4], &[3, 0, 0, 4]] {
        prints(&[&three, rest].concat(), lines);
    }
    let alone: String = (2..=8)
        .map(|d| format!("d {d}: depth 0, 1 nodes, 1 leaves\n"))
        .collect();
    prints(&[1, 0], &alone);
    prints(&[1, 1, 1, 0, 4], &alone);
    let six_steps = [1, 2].repeat(6).into_iter().chain([1, 0].repeat(7));
    let too_large: String = CHILDREN
        .map(|d| {
            let (nodes, leaves) = size(d, 6);
            let mark = "cannot be loaded by this software";
            format!("d {d}: depth 6, {nodes} nodes, {leaves} leaves, {mark}\n")
        })
        .collect();
    prints(&six_steps.collect::<Vec<u8>>(), &too_large);
    prints(&[], "no 1 0\n");
    prints(&[4], "no 1 0\n");
    prints(&[2, 0, 4], "no 1 2\n");
    prints(&[1, 2, 1, 0], "no 1 4\n");
    prints(&[1, 0, 1, 0, 4, 9], "no 2 4\n");
    prints(&[1, 9, 8, 4], "no 20 2\n");
    prints(&[1, 0, 3, 0], "no 21 2\n");
    prints(&[1, 0, 9, 4], "no 21 2\n");
    prints(&[&[1, 0, 9][..], &[4; 9]].concat(), "no 22 2\n");
    prints(&[&[1, 0, 10][..], &[4; 12]].concat(), "no 22 2\n");
    prints(&[1, 0, 7, 4], "no 22 2\n");
    prints(&[1, 0, 3, 0, 1, 3, 0, 1, 4], "no 22 5\n");
    println!("examples: as they should be");
}

/// A regular chip is marked exactly if its bytes are refused as a target.
fn marks() {
    for d in CHILDREN {
        for depth in (0..=13).take_while(|&depth| size(d, depth).0 < 20_000) {
            let read = Topology::read(&complete(d, depth), TARGET_NODES);
            assert_eq!(can_be_loaded(d, depth), read.is_ok(), "{d} {depth}");
        }
    }
    println!("chips that cannot be loaded: those that the reader refuses");
}

/// A source, with or without a target, a limit and an 04, and any bytes after
/// that.
fn drawing_alone(random: &mut Random) -> Vec<u8> {
    let source = match random.below(4) {
        0 => drawing(random, SOURCE_NODES),
        1 | 2 => steep(random, SOURCE_NODES),
        _ => generate::damaged(random, |random| drawing(random, SOURCE_NODES)),
    };
    let mut commands: Vec<Command> = source.into_iter().map(source_node).collect();
    for _ in 0..random.pick(&[0, 0, 1, 10]) {
        let any = random.below(256) as u8;
        commands.insert(random.within(0..=commands.len()), target_node(any));
    }
    if random.one_in(2) {
        let packets = random.below(300);
        commands.insert(random.within(0..=commands.len()), limit(packets));
    }
    if random.one_in(2) {
        commands.push(vec![OPEN]);
        let any = (0..random.below(4)).map(|_| random.below(12) as u8);
        commands.push(any.collect());
    }
    commands.concat()
}

/// Runs both, and counts what was met.
#[derive(Default)]
struct Comparison {
    tables: usize,
    /// Tables and refusals of sources that an 04 without a limit ends.
    without_limit: usize,
    /// Refusals by their numbers, and those of them at the script's end.
    refusals: BTreeMap<u8, usize>,
    at_the_end: usize,
    /// The depths of chips with two children at each inner node.
    depths: BTreeMap<usize, usize>,
    /// Lines with and without the mark of a chip that cannot be loaded.
    marked: usize,
    unmarked: usize,
}

impl Comparison {
    fn script(&mut self, script: &[u8]) {
        let expected = table(script);
        assert_eq!(text(bought(script)), expected, "{script:02X?}");
        let outcomes = outcomes(script);
        let unlimited = |outcome: &Outcome| matches!(outcome.answer, Err((22, "04 before 03")));
        self.without_limit += usize::from(outcomes.iter().any(unlimited));

        let words: Vec<&str> = expected.split([' ', ',', '\n']).collect();
        if let ["no", refusal, offset, ""] = words[..] {
            let refusal = refusal.parse().expect("a number");
            *self.refusals.entry(refusal).or_default() += 1;
            let length = script.len().min(SCRIPT_BYTES);
            self.at_the_end += usize::from(offset == length.to_string());
        } else {
            self.tables += 1;
            let depth = words[3].parse().expect("a number");
            *self.depths.entry(depth).or_default() += 1;
            for line in expected.lines() {
                match line.ends_with("cannot be loaded by this software") {
                    true => self.marked += 1,
                    false => self.unmarked += 1,
                }
            }
        }
    }

    fn print(&self) {
        println!(
            "{} tables, {} sources that an 04 without a limit ends; how many refusals of each number:",
            self.tables, self.without_limit
        );
        for (refusal, met) in &self.refusals {
            println!("  {met:7}  {refusal}");
        }
        println!("  {:7}  of them at the script's end", self.at_the_end);
        println!(
            "{} lines with the mark of a chip that cannot be loaded, {} without",
            self.marked, self.unmarked
        );
        println!("how often each depth was met, with two children:");
        for (depth, met) in &self.depths {
            println!("  {met:7}  {depth}");
        }
    }

    fn require_everything(&self) {
        for refusal in [1, 2, 3, 4, 5, 20, 21, 22] {
            let met = self.refusals.get(&refusal).copied().unwrap_or(0);
            assert!(met >= OFTEN_ENOUGH, "{refusal} was met only {met} times");
        }
        for depth in 0..=11 {
            let met = self.depths.get(&depth).copied().unwrap_or(0);
            assert!(met >= OFTEN_ENOUGH, "depth {depth}: only {met}");
        }
        for met in [
            self.without_limit,
            self.at_the_end,
            self.marked,
            self.unmarked,
        ] {
            assert!(met >= OFTEN_ENOUGH, "only {met} of a kind");
        }
    }
}
