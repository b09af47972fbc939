//! The commands of a script, each with its operands, as bytes.

use crate::queue_tree::Step;

pub type Command = Vec<u8>;

pub fn source_node(children: u8) -> Command {
    vec![0x01, children]
}

pub fn target_node(children: u8) -> Command {
    vec![0x02, children]
}

pub fn limit(packets: usize) -> Command {
    let packets = packets as u16;
    [vec![0x03], packets.to_be_bytes().to_vec()].concat()
}

pub const OPEN: u8 = 0x04;
pub const POP: u8 = 0x07;

pub fn step(child: u8, rank: u32) -> Command {
    [vec![0x05, child], rank.to_be_bytes().to_vec()].concat()
}

pub fn push(packet: u32, leaf_rank: u32) -> Command {
    let numbers = [packet.to_be_bytes(), leaf_rank.to_be_bytes()];
    [vec![0x06], numbers.concat()].concat()
}

/// A step with a rank of 64 bits.
pub fn wide_step(child: u8, rank: u64) -> Command {
    [vec![0x09, child], rank.to_be_bytes().to_vec()].concat()
}

/// A push with a leaf rank of 64 bits.
pub fn wide_push(packet: u32, leaf_rank: u64) -> Command {
    let (packet, leaf_rank) = (packet.to_be_bytes(), leaf_rank.to_be_bytes());
    [vec![0x0A], packet.to_vec(), leaf_rank.to_vec()].concat()
}

/// The steps of a path and the push along them. A rank above 32 bits takes a
/// wide command, and any other one where `wide` says so.
pub fn push_along(
    steps: &[Step],
    packet: u32,
    leaf_rank: u64,
    mut wide: impl FnMut() -> bool,
) -> Vec<Command> {
    let mut narrow = |rank: u64| u32::try_from(rank).ok().filter(|_| !wide());
    let mut commands: Vec<Command> = steps
        .iter()
        .map(|taken| match narrow(taken.rank) {
            Some(rank) => step(taken.child, rank),
            None => wide_step(taken.child, taken.rank),
        })
        .collect();
    commands.push(match narrow(leaf_rank) {
        Some(rank) => push(packet, rank),
        None => wide_push(packet, leaf_rank),
    });
    commands
}

/// Both drawings, the limit and 04, in the plainest order.
pub fn opening(source: &[u8], target: &[u8], packets: usize) -> Vec<Command> {
    let mut commands: Vec<Command> = source.iter().copied().map(source_node).collect();
    commands.extend(target.iter().copied().map(target_node));
    commands.push(limit(packets));
    commands.push(vec![OPEN]);
    commands
}
