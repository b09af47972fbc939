//! Ways to read a rank of 64 bits wrong, so that a comparison can tell whether it
//! would have caught them.

use crate::queue_tree::Entry;
use crate::script::Outcome;
use std::cmp::Ordering;

pub const MISREADINGS: [(&str, fn(u64) -> u64); 6] = [
    ("by their low words", |rank| rank & 0xFFFF_FFFF),
    ("by their high words", |rank| rank >> 32),
    ("with their words exchanged", |rank| rank.rotate_left(32)),
    ("with their bytes the other way round", u64::swap_bytes),
    ("up to 2^32 - 1", |rank| rank.min(0xFFFF_FFFF)),
    ("as numbers with a sign", |rank| rank ^ 1 << 63),
];

/// The misreadings by which neighbours in a queue would stand in another order,
/// and those by which different ones would be equal.
pub fn of_queue(queue: &[Entry]) -> Vec<String> {
    let mut met = Vec::new();
    for (one, other) in queue.windows(2).map(|two| (two[0].rank, two[1].rank)) {
        for (name, reading) in MISREADINGS {
            match reading(one).cmp(&reading(other)) {
                Ordering::Greater => met.push(format!("ranks in another order {name}")),
                Ordering::Equal if one < other => met.push(format!("ranks equal {name}")),
                _ => {}
            }
        }
    }
    met
}

/// All that queues can meet.
pub const QUEUE_KINDS: [&str; 7] = [
    "ranks in another order by their low words",
    "ranks in another order with their words exchanged",
    "ranks in another order with their bytes the other way round",
    "ranks in another order as numbers with a sign",
    "ranks equal by their low words",
    "ranks equal by their high words",
    "ranks equal up to 2^32 - 1",
];

/// A script with the ranks of its wide commands as misread.
pub fn of_script(script: &[u8], outcomes: &[Outcome], reading: fn(u64) -> u64) -> Vec<u8> {
    let mut script = script.to_vec();
    for outcome in outcomes.iter().filter(|outcome| outcome.is_wide()) {
        let first = outcome.offset + if outcome.command == 0x09 { 2 } else { 5 };
        let rest = script.get_mut(first..);
        // There is no rank if the command is cut short.
        if let Some(rank) = rest.and_then(|rest| rest.first_chunk_mut()) {
            *rank = reading(u64::from_be_bytes(*rank)).to_be_bytes();
        }
    }
    script
}
