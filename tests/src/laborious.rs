//! The longest scripts with the most work in them, to be timed.

use crate::commands::{opening, push_along, Command, POP};
use crate::generate::chain;
use crate::queue_tree::{Step, MOST_PACKETS};
use crate::script::SCRIPT_BYTES;

/// The scripts with their names.
pub fn scripts() -> Vec<(&'static str, Vec<u8>)> {
    let alone = opening(&[0], &[0], MOST_PACKETS);
    let lane = opening(&[2, 0, 0], &long_and_short(), MOST_PACKETS);
    let deep = opening(&comb(), &comb(), MOST_PACKETS);
    let hut = opening(&chain(9), &chain(9), MOST_PACKETS);
    let lanes = opening(&[2, 0, 0], &chains(), MOST_PACKETS);
    let chip = opening(&[1, 0], &full_chip(), MOST_PACKETS);
    let (source, target) = largest_pair();
    let largest = opening(&source, &target, MOST_PACKETS);
    let pop = |_: u32| vec![POP];
    vec![
        ("pops of an empty tree", filled(&alone, 0, &[], pop)),
        ("pops of empty trees, 2 in 64", filled(&chip, 0, &[], pop)),
        (
            "pops of empty trees, 32 in 64",
            filled(&largest, 0, &[], pop),
        ),
        ("push, pop, one node", filled(&alone, 0, &[], push_pop(&[]))),
        (
            "push, pop, one node, full",
            filled(&alone, 255, &[], push_pop(&[])),
        ),
        (
            "pushes, one node, full",
            filled(&alone, 256, &[], level(&[])),
        ),
        (
            "push, pop, 8 steps, full",
            filled(&deep, 255, &[2; 8], push_pop(&[2; 8])),
        ),
        (
            "the same, all nodes passed over",
            filled(&hut, 255, &[1; 8], push_pop(&[1; 8])),
        ),
        (
            "push, pop, 1 step in 8, full",
            filled(&lane, 255, &[1], push_pop(&[1])),
        ),
        (
            "the same, 3 nodes in 57",
            filled(&lanes, 255, &[1], push_pop(&[1])),
        ),
        (
            "pushes, 1 step in 8, full",
            filled(&lane, 256, &[1], level(&[1])),
        ),
        (
            "filled and emptied, 1 step in 8",
            filled(&lane, 0, &[1], fill_and_empty),
        ),
        (
            "8 steps to each push",
            filled(&deep, 0, &[2; 8], level(&[2; 8])),
        ),
        (
            "8 steps to each push, all refused",
            filled(&lane, 0, &[1], level(&[1; 8])),
        ),
        (
            "8 wide steps to each wide push",
            filled(&deep, 0, &[], |turn| wide_push(&[2; 8], turn)),
        ),
        ("a hard search", hard_search()),
    ]
}

/// An opening, some packets, and turns of one kind up to the longest script.
fn filled(
    opening: &[Command],
    packets: u32,
    path: &[u8],
    turn: impl Fn(u32) -> Vec<u8>,
) -> Vec<u8> {
    let mut script = opening.concat();
    script.extend((0..packets).flat_map(level(path)));
    for number in 0.. {
        let next = turn(number);
        if script.len() + next.len() > SCRIPT_BYTES {
            break;
        }
        script.extend(next);
    }
    script
}

/// A push, all ranks alike.
fn level(path: &[u8]) -> impl Fn(u32) -> Vec<u8> + '_ {
    |turn| push(path, turn, 5)
}

/// A push whose ranks are below all before, and a pop of what it pushed.
fn push_pop(path: &[u8]) -> impl Fn(u32) -> Vec<u8> + '_ {
    |turn| [push(path, turn, 0), vec![POP]].concat()
}

/// 256 pushes, then three pops for each, and again.
fn fill_and_empty(turn: u32) -> Vec<u8> {
    match turn % 1024 < 256 {
        true => push(&[1], turn, u64::from(turn % 3)),
        false => vec![POP],
    }
}

fn push(path: &[u8], packet: u32, rank: u64) -> Vec<u8> {
    push_along(&level_steps(path, rank), packet, rank, || false).concat()
}

/// A push whose ranks are of 64 bits and below all before.
fn wide_push(path: &[u8], packet: u32) -> Vec<u8> {
    let rank = u64::MAX - u64::from(packet);
    push_along(&level_steps(path, rank), packet, rank, || true).concat()
}

/// Steps of one rank.
fn level_steps(path: &[u8], rank: u64) -> Vec<Step> {
    path.iter().map(|&child| Step { child, rank }).collect()
}

/// One way of eight steps and one of one.
fn long_and_short() -> Vec<u8> {
    [vec![2], chain(8), vec![0]].concat()
}

/// Eight steps down to the last leaf, and another leaf beside each step.
fn comb() -> Vec<u8> {
    [[2, 0].repeat(8), vec![0]].concat()
}

/// Seven ways of eight steps.
fn chains() -> Vec<u8> {
    [vec![7], chain(8).repeat(7)].concat()
}

/// 64 nodes: one way of eight steps, and fans beside it.
fn full_chip() -> Vec<u8> {
    [vec![8], chain(8), fan(7).repeat(6), fan(6)].concat()
}

/// 32 nodes and 64, with a map.
pub fn largest_pair() -> (Vec<u8>, Vec<u8>) {
    let fans = |count: u8| {
        let all_but_one = fan(7).repeat(usize::from(count) - 1);
        [vec![count], all_but_one, fan(6)].concat()
    };
    (fans(4), fans(8))
}

fn fan(children: u8) -> Vec<u8> {
    [vec![children], vec![0; usize::from(children)]].concat()
}

fn hard_search() -> Vec<u8> {
    let (source, target) = hard_pair();
    opening(&source, &target, 1).concat()
}

/// Eight children a node, 32 nodes into 64, and no map.
pub fn hard_pair() -> (Vec<u8>, Vec<u8>) {
    let source = [vec![8], fan(8), fan(8), fan(7), vec![0; 5]].concat();
    let target = [vec![8], fan(7).repeat(6), fan(8), vec![1; 5], vec![0]].concat();
    (source, target)
}
