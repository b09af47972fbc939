//! The second implementation of buychip: for each number of children that a
//! regular chip may have, the least depth, and how large that chip is.

use crate::regular::{least_depth, size, CHILDREN};
use crate::script::{outcomes, SCRIPT_BYTES};
use crate::topology::{MOST_STEPS_DOWN, TARGET_NODES};

/// What buychip prints for a script.
pub fn table(script: &[u8]) -> String {
    let mut source = Vec::new();
    let mut end = script.len().min(SCRIPT_BYTES);
    for outcome in outcomes(script) {
        match (outcome.command, outcome.answer) {
            // The source ends here, whatever gatewalk answers to it.
            (0x04, _) => {
                end = outcome.offset;
                break;
            }
            (_, Err((number, _))) => return refused(number, outcome.offset),
            (0x01, Ok(_)) => source.push(script[outcome.offset + 1]),
            _ => {}
        }
    }
    let lines: Result<Vec<String>, u8> = CHILDREN.map(|d| line(&source, d)).collect();
    lines.map_or_else(|number| refused(number, end), |lines| lines.concat())
}

fn line(source: &[u8], d: usize) -> Result<String, u8> {
    let depth = least_depth(source, d)?;
    let (nodes, leaves) = size(d, depth);
    let mark = match can_be_loaded(d, depth) {
        true => "",
        false => ", cannot be loaded by this software",
    };
    Ok(format!(
        "d {d}: depth {depth}, {nodes} nodes, {leaves} leaves{mark}\n"
    ))
}

/// Whether the regular chip lies within the limits of a target.
pub fn can_be_loaded(d: usize, depth: usize) -> bool {
    depth <= MOST_STEPS_DOWN && size(d, depth).0 <= TARGET_NODES
}

fn refused(number: u8, offset: usize) -> String {
    format!("no {number} {offset}\n")
}
