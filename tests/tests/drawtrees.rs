//! Runs the program drawtrees and the second implementation on the same
//! scripts and compares what they draw. The first difference ends the run.

use linduvar_tests::commands::opening;
use linduvar_tests::drawing::draw;
use linduvar_tests::gatewalk::drawn;
use linduvar_tests::random::{self, Random};
use linduvar_tests::{generate, pairs, paper, samples, scripts};
use std::collections::BTreeMap;

const SCRIPTS: u64 = 400;
const PAIRS: u64 = 400;

/// The notes of sheets, without their numbers; a sheet with a map has none.
const NOTES: [&str; 16] = [
    "",
    "nothing to draw",
    "no  ",
    "no  : node  needs  levels above it, the chip has ",
    "no  : the branch of node  has  leaves, a chip branch where it may go at most ",
    "no  : the branches below node  do not fit side by side",
    "no  : the source ends before it is complete",
    "no  : the source is complete before node ",
    "no  : node  of the source is one too many",
    "no  : node  of the source has more than  children",
    "no  : node  of the source lies  steps down",
    "no  : the chip ends before it is complete",
    "no  : the chip is complete before node ",
    "no  : node  of the chip is one too many",
    "no  : node  of the chip has more than  children",
    "no  : node  of the chip lies  steps down",
];

fn main() {
    let seed = random::seed();
    println!("seed {seed} (LINDUVAR_SEED={seed} repeats this run)");
    let mut sheets = Sheets::default();
    for (script, _) in paper::scripts() {
        sheets.compare(&script);
    }
    for path in samples::all() {
        sheets.compare(&samples::read(&path).script);
    }
    sheets.compare(&[]);
    println!("the paper's scripts and the samples: no difference");
    for number in 0..SCRIPTS {
        let mut random = Random::new(seed.wrapping_add(number));
        sheets.compare(&scripts::any(&mut random).1);
    }
    for number in 0..PAIRS {
        let mut random = Random::new(seed.wrapping_add(number));
        let pair = pairs::any(&mut random, 32, 64);
        let (source, target) = (generate::any(&mut random), generate::any(&mut random));
        for (source, target) in [
            (&pair.source, &pair.target),
            (&source, &target),
            (&pair.source, &target),
        ] {
            sheets.compare(&opening(source, target, 1).concat());
        }
    }
    println!("{SCRIPTS} random scripts, {PAIRS} pairs, {PAIRS} of any bytes, {PAIRS} with any chip: no difference");
    sheets.finish();
}

/// How many sheets had each note, and the length of the longest sheet.
#[derive(Default)]
struct Sheets {
    met: BTreeMap<String, usize>,
    longest: usize,
}

impl Sheets {
    fn compare(&mut self, script: &[u8]) {
        let rattle = String::from_utf8(drawn(script)).expect("plain text");
        assert_eq!(rattle, draw(script), "{script:02X?}");
        let note = rattle.split_once("y='14'>").map_or("", |(_, rest)| rest);
        let words = note.split('<').next().unwrap_or("");
        let words = words
            .chars()
            .filter(|char| !char.is_ascii_digit())
            .collect();
        *self.met.entry(words).or_insert(0) += 1;
        self.longest = self.longest.max(rattle.len());
    }

    fn finish(self) {
        for note in NOTES {
            let met = self.met.get(note).copied().unwrap_or(0);
            println!(
                "{met:5} {}",
                if note.is_empty() { "with a map" } else { note }
            );
            assert!(met > 0, "no sheet with the note {note:?}");
        }
        assert_eq!(
            self.met.len(),
            NOTES.len(),
            "another note: {:?}",
            self.met.keys()
        );
        println!("the longest sheet had {} bytes", self.longest);
    }
}
