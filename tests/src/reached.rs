//! Counts what scripts have reached: every command, every refusal with its
//! cases, scripts of every kind, and what else has to be met.

use crate::kinds::Kinds;
use crate::misread::{self, MISREADINGS};
use crate::pairs::shares_a_node;
use crate::reduced::PASSED_OVER;
use crate::script::{outcomes, run, Done, Outcome, REFUSALS, SCRIPT_BYTES};
use crate::scripts::{KINDS, LONG_KINDS};

/// Each thing must be met this often, but those at the end of the longest
/// script, which take long to reach.
const OFTEN_ENOUGH: usize = 5;
const AT_THE_END: usize = 3;

#[derive(Default)]
pub struct Reached {
    met: Kinds,
    scripts: usize,
    most_held: usize,
}

impl Reached {
    pub fn new() -> Reached {
        Reached::default()
    }

    /// Runs a script and counts.
    pub fn script(&mut self, kind: &str, script: &[u8]) {
        self.scripts += 1;
        self.met.meet(kind);
        let outcomes = outcomes(script);
        for outcome in &outcomes {
            match &outcome.answer {
                Err((number, case)) => self.met.meet(&format!("{number} {case}")),
                Ok(done) => {
                    self.met.meet(&format!("{:02X}", outcome.command));
                    match done {
                        Done::Held(packets) => self.most_held = self.most_held.max(*packets),
                        Done::Map(map) => self.map(&target(script, &outcomes), map),
                        Done::Read | Done::Departed(_) => {}
                    }
                }
            }
        }
        self.pushes(&outcomes);
        match outcomes.iter().any(Outcome::is_wide) {
            true => self.wide_ranks(script, &outcomes),
            false => self.met.meet("neither 09 nor 0A is reached"),
        }
        let stopped = outcomes.last().is_some_and(Outcome::stops);
        if script.len() > SCRIPT_BYTES && !stopped {
            self.met.meet("ended by its length alone");
        }
    }

    fn map(&mut self, target: &[u8], map: &[u8]) {
        let passed = map.iter().filter(|&&image| image == PASSED_OVER).count();
        for (met, kind) in [
            (shares_a_node(target, map), MAPS[0]),
            (passed > 0, MAPS[1]),
            (passed > 0 && passed + 1 == map.len(), MAPS[2]),
        ] {
            if met {
                self.met.meet(kind);
            }
        }
    }

    /// By which commands the steps of a push were gathered, or those before a
    /// ninth; and pushes that are accepted after one that was refused along some
    /// steps.
    fn pushes(&mut self, outcomes: &[Outcome]) {
        let mut steps = Vec::new();
        let mut refused = None;
        for Outcome {
            command, answer, ..
        } in outcomes
        {
            match (command, answer) {
                (0x05 | 0x09, Ok(_)) => steps.push(*command),
                (0x05 | 0x09, Err((22, case))) if !steps.is_empty() => {
                    self.met
                        .meet(&format!("{case}, after {}", gathered(&steps)));
                }
                (0x06 | 0x0A, Ok(_)) => {
                    let gathered = gathered(&steps);
                    self.met.meet(&format!("{command:02X} along {gathered}"));
                    if let Some((command, number)) = refused.take() {
                        self.met.meet(&accepted_after(command, number));
                    }
                    steps.clear();
                }
                (0x06 | 0x0A, Err((number, _))) => {
                    refused = (!steps.is_empty()).then_some((*command, *number));
                    steps.clear();
                }
                _ => {}
            }
        }
    }

    /// Whether a script would print something else if its ranks were misread.
    fn wide_ranks(&mut self, script: &[u8], outcomes: &[Outcome]) {
        self.met.meet("09 or 0A is reached");
        let printed = run(script);
        for (name, reading) in MISREADINGS {
            if run(&misread::of_script(script, outcomes, reading)) != printed {
                self.met.meet(&another_text(name));
            }
        }
    }

    /// Adds what another has counted.
    pub fn add(&mut self, other: Reached) {
        self.met.add(other.met);
        self.scripts += other.scripts;
        self.most_held = self.most_held.max(other.most_held);
    }

    pub fn print(&self) {
        println!(
            "{} scripts, at most {} packets held; how often each kind of script, each command, \
             each refusal and each occasion was met:",
            self.scripts, self.most_held
        );
        self.met.print();
    }

    pub fn require_everything(&self) {
        let require = |kind: &str| self.met.require(kind, OFTEN_ENOUGH);
        for kind in KINDS.iter().map(|(kind, _)| kind).chain(&LONG_KINDS) {
            require(kind);
        }
        for command in ["01", "02", "03", "04", "05", "06", "07", "09", "0A"] {
            require(command);
        }
        for (number, case) in REFUSALS {
            let enough = match case {
                "cut short by the longest script" => AT_THE_END,
                _ => OFTEN_ENOUGH,
            };
            self.met.require(&format!("{number} {case}"), enough);
        }
        for steps in ["05", "09", "05 and 09"] {
            for step in ["05", "09"] {
                require(&format!("ninth step by {step}, after {steps}"));
            }
            for push in ["06", "0A"] {
                require(&format!("{push} along {steps}"));
            }
        }
        for push in [0x06, 0x0A] {
            for number in [13, 14, 15] {
                require(&accepted_after(push, number));
            }
        }
        for (name, _) in MISREADINGS {
            require(&another_text(name));
        }
        require("neither 09 nor 0A is reached");
        require("09 or 0A is reached");
        for map in MAPS {
            require(map);
        }
        self.met.require("ended by its length alone", AT_THE_END);
        assert_eq!(self.most_held, 256, "no tree was full at the highest limit");
    }
}

/// Maps by which two branches of the source share a chip node, maps of sources
/// with nodes that are passed over, and among them those of which one leaf is
/// left.
const MAPS: [&str; 3] = [
    "a map that shares a chip node",
    "a map that passes over nodes",
    "a map that passes over all nodes but a leaf",
];

/// By which commands steps were gathered.
fn gathered(steps: &[u8]) -> &'static str {
    match (steps.contains(&0x05), steps.contains(&0x09)) {
        (true, true) => "05 and 09",
        (true, false) => "05",
        (false, true) => "09",
        (false, false) => "no steps",
    }
}

/// Had the refused push left its steps, the next one would go along them too.
fn accepted_after(command: u8, number: u8) -> String {
    format!("a push accepted after steps and {command:02X}, refused by {number}")
}

fn another_text(misreading: &str) -> String {
    format!("another text if ranks are read {misreading}")
}

/// The target that a script drew.
fn target(script: &[u8], outcomes: &[Outcome]) -> Vec<u8> {
    let accepted = outcomes.iter().filter(|outcome| outcome.answer.is_ok());
    accepted
        .filter(|outcome| outcome.command == 0x02)
        .map(|outcome| script[outcome.offset + 1])
        .collect()
}
