//! The second implementation of gatewalk: a script's commands in turn, over
//! both trees.

use crate::both_trees::BothTrees;
use crate::embedding::{self, Pair};
use crate::queue_tree::{self, Step};
use crate::topology::{Topology, SOURCE_NODES, TARGET_NODES};
use crate::translator::Path;

/// A script has no more bytes; what follows is not read.
pub const SCRIPT_BYTES: usize = 65_536;

/// What a script prints.
pub fn run(script: &[u8]) -> Vec<u8> {
    print(outcomes(script))
}

fn print(outcomes: Vec<Outcome>) -> Vec<u8> {
    let lines = outcomes.iter().map(Outcome::line);
    lines.collect::<String>().into_bytes()
}

/// Every command that was met, and what came of it.
pub fn outcomes(script: &[u8]) -> Vec<Outcome> {
    outcomes_of(script, operand_bytes)
}

/// What a script printed before 2.5, when 09 and 0A were unknown; and whether it
/// reaches one of them.
pub fn run_before_wide(script: &[u8]) -> (Vec<u8>, bool) {
    let outcomes = outcomes_of(script, |command| match command {
        0x09 | 0x0A => None,
        _ => operand_bytes(command),
    });
    let reaches = outcomes.iter().any(Outcome::is_wide);
    (print(outcomes), reaches)
}

fn outcomes_of(script: &[u8], operand_bytes: fn(u8) -> Option<usize>) -> Vec<Outcome> {
    let script = &script[..script.len().min(SCRIPT_BYTES)];
    let mut walk = Walk::new(script, operand_bytes);
    let mut outcomes = Vec::new();
    while let Some(outcome) = walk.next_command() {
        let stop = outcome.stops();
        outcomes.push(outcome);
        if stop {
            break;
        }
    }
    outcomes
}

pub struct Outcome {
    pub offset: usize,
    pub command: u8,
    pub answer: Result<Done, Refused>,
}

#[derive(Debug)]
pub enum Done {
    /// A part of a drawing, the limit or a step was read.
    Read,
    Map(Vec<u8>),
    Held(usize),
    Departed(u32),
}

/// A refusal by its number, and which of that number's cases it is.
pub type Refused = (u8, &'static str);

/// Every refusal that a script can meet.
pub const REFUSALS: [Refused; 42] = [
    (1, "source"),
    (2, "source"),
    (3, "source"),
    (4, "source"),
    (5, "source"),
    (1, "target"),
    (2, "target"),
    (3, "target"),
    (4, "target"),
    (5, "target"),
    (12, NO_MAP),
    (13, NO_CHILD),
    (14, ABOVE_LEAF),
    (15, FULL),
    (16, NONE_HELD),
    (17, "limit 0"),
    (17, "limit above 256"),
    (20, "command 00"),
    (20, "command 08"),
    (20, "command above 0A"),
    (21, "01 cut short"),
    (21, "02 cut short"),
    (21, "03 cut short"),
    (21, "05 cut short"),
    (21, "06 cut short"),
    (21, "09 cut short"),
    (21, "0A cut short"),
    (21, "cut short and out of turn"),
    (21, "cut short by the longest script"),
    (22, "01 after 04"),
    (22, "02 after 04"),
    (22, "03 after 04"),
    (22, "second 03"),
    (22, "04 before 03"),
    (22, "second 04"),
    (22, "05 before 04"),
    (22, "06 before 04"),
    (22, "07 before 04"),
    (22, "09 before 04"),
    (22, "0A before 04"),
    (22, "ninth step by 05"),
    (22, "ninth step by 09"),
];

const NO_MAP: &str = "no map";
const NO_CHILD: &str = "no such child";
const ABOVE_LEAF: &str = "path ends above a leaf";
const FULL: &str = "full";
const NONE_HELD: &str = "none held";
const MOST_STEPS: usize = 8;

impl Outcome {
    /// The line that is printed, or nothing.
    fn line(&self) -> String {
        match &self.answer {
            Ok(Done::Read) => String::new(),
            Ok(Done::Map(images)) => {
                let images: Vec<String> = images.iter().map(u8::to_string).collect();
                format!("map {}\n", images.join(" "))
            }
            Ok(Done::Held(packets)) => format!("in {packets}\n"),
            Ok(Done::Departed(packet)) => format!("out {packet:08X}\n"),
            Err((number, _)) => format!("no {number} {}\n", self.offset),
        }
    }

    /// Whether the script ends here: after 13 to 16 it goes on.
    pub fn stops(&self) -> bool {
        matches!(self.answer, Err((number, _)) if !(13..=16).contains(&number))
    }

    /// Whether the command carries a rank of 64 bits.
    pub fn is_wide(&self) -> bool {
        matches!(self.command, 0x09 | 0x0A)
    }
}

/// How many bytes follow a command; None for one that is unknown.
fn operand_bytes(command: u8) -> Option<usize> {
    match command {
        0x01 | 0x02 => Some(1),
        0x03 => Some(2),
        0x04 | 0x07 => Some(0),
        0x05 => Some(5),
        0x06 => Some(8),
        0x09 => Some(9),
        0x0A => Some(12),
        _ => None,
    }
}

/// A script and how far it has come.
struct Walk<'a> {
    script: &'a [u8],
    operand_bytes: fn(u8) -> Option<usize>,
    next: usize,
    source: Vec<u8>,
    target: Vec<u8>,
    limit: Option<usize>,
    steps: Vec<Step>,
    /// None before 04.
    trees: Option<BothTrees>,
}

impl<'a> Walk<'a> {
    fn new(script: &'a [u8], operand_bytes: fn(u8) -> Option<usize>) -> Walk<'a> {
        Walk {
            script,
            operand_bytes,
            next: 0,
            source: Vec::new(),
            target: Vec::new(),
            limit: None,
            steps: Vec::new(),
            trees: None,
        }
    }

    /// None at the end of the script.
    fn next_command(&mut self) -> Option<Outcome> {
        let offset = self.next;
        let command = *self.script.get(offset)?;
        let answer = self
            .operands(command)
            .and_then(|operands| self.turn(command).map(|()| operands))
            .and_then(|operands| self.execute(command, operands));
        Some(Outcome {
            offset,
            command,
            answer,
        })
    }

    /// Takes the operands of the next command: refusals 20 and 21.
    fn operands(&mut self, command: u8) -> Result<&'a [u8], Refused> {
        let Some(length) = (self.operand_bytes)(command) else {
            return Err(match command {
                0x00 => (20, "command 00"),
                0x08 => (20, "command 08"),
                _ => (20, "command above 0A"),
            });
        };
        let start = self.next + 1;
        let Some(operands) = self.script.get(start..start + length) else {
            return Err((21, self.cut_short(command)));
        };
        self.next = start + length;
        Ok(operands)
    }

    fn cut_short(&self, command: u8) -> &'static str {
        if self.turn(command).is_err() {
            return "cut short and out of turn";
        }
        if self.script.len() == SCRIPT_BYTES {
            return "cut short by the longest script";
        }
        match command {
            0x01 => "01 cut short",
            0x02 => "02 cut short",
            0x03 => "03 cut short",
            0x05 => "05 cut short",
            0x06 => "06 cut short",
            0x09 => "09 cut short",
            _ => "0A cut short",
        }
    }

    /// Refusal 22.
    fn turn(&self, command: u8) -> Result<(), Refused> {
        let opened = self.trees.is_some();
        let rule = match command {
            0x01 if opened => "01 after 04",
            0x02 if opened => "02 after 04",
            0x03 if opened => "03 after 04",
            0x03 if self.limit.is_some() => "second 03",
            0x04 if opened => "second 04",
            0x04 if self.limit.is_none() => "04 before 03",
            0x05 if !opened => "05 before 04",
            0x06 if !opened => "06 before 04",
            0x07 if !opened => "07 before 04",
            0x09 if !opened => "09 before 04",
            0x0A if !opened => "0A before 04",
            0x05 if self.steps.len() == MOST_STEPS => "ninth step by 05",
            0x09 if self.steps.len() == MOST_STEPS => "ninth step by 09",
            _ => return Ok(()),
        };
        Err((22, rule))
    }

    /// Does what a command says that stands in its turn.
    fn execute(&mut self, command: u8, operands: &[u8]) -> Result<Done, Refused> {
        match command {
            0x01 => self.source.push(operands[0]),
            0x02 => self.target.push(operands[0]),
            0x03 => self.limit = Some(number(operands) as usize),
            0x05 | 0x09 => self.steps.push(Step {
                child: operands[0],
                rank: number(&operands[1..]),
            }),
            0x04 => return self.open(),
            0x06 | 0x0A => {
                let (packet, leaf_rank) = operands.split_at(4);
                return self.push(number(packet) as u32, number(leaf_rank));
            }
            _ => return self.pop(),
        }
        Ok(Done::Read)
    }

    /// Compiles and opens both trees: 1 to 5, then 12, then 17.
    fn open(&mut self) -> Result<Done, Refused> {
        let limit = self.limit.expect("04 comes after 03");
        let read = |bytes: &[u8], nodes, which| {
            Topology::read(bytes, nodes).map_err(|refusal| (refusal as u8, which))
        };
        let pair = Pair {
            source: read(&self.source, SOURCE_NODES, "source")?,
            target: read(&self.target, TARGET_NODES, "target")?,
        };
        let map = match pair.least_map() {
            Ok(map) => map,
            Err(embedding::Refusal::NoMap) => return Err((12, NO_MAP)),
            Err(refusal) => panic!("the search does not answer {refusal:?}"),
        };
        match BothTrees::open(&self.source, &self.target, &map, limit) {
            Ok(trees) => self.trees = Some(trees),
            Err(17) if limit == 0 => return Err((17, "limit 0")),
            Err(17) => return Err((17, "limit above 256")),
            Err(refusal) => panic!("an opening over a least map does not answer {refusal}"),
        }
        Ok(Done::Map(map))
    }

    /// Pushes along the steps gathered, and clears them.
    fn push(&mut self, packet: u32, leaf_rank: u64) -> Result<Done, Refused> {
        let steps = std::mem::take(&mut self.steps);
        let trees = self.trees.as_mut().expect("a push comes after 04");
        trees
            .push(&Path { steps, leaf_rank }, packet)
            .map_err(refused)?;
        Ok(Done::Held(trees.held()))
    }

    fn pop(&mut self) -> Result<Done, Refused> {
        let trees = self.trees.as_mut().expect("07 comes after 04");
        trees.pop().map(Done::Departed).map_err(refused)
    }
}

fn refused(refusal: queue_tree::Refusal) -> Refused {
    let case = match refusal {
        queue_tree::Refusal::NoSuchChild => NO_CHILD,
        queue_tree::Refusal::EndsAboveLeaf => ABOVE_LEAF,
        queue_tree::Refusal::Full(_) => FULL,
        queue_tree::Refusal::NoneHeld => NONE_HELD,
        other => panic!("a push or a pop after an opening does not answer {other:?}"),
    };
    (refusal.number(), case)
}

/// A number of up to 8 bytes, big endian.
fn number(bytes: &[u8]) -> u64 {
    bytes
        .iter()
        .fold(0, |number, &byte| number << 8 | u64::from(byte))
}
