//! Random byte strings: topologies, damaged topologies and noise.

use crate::random::Random;
use crate::topology::{MOST_CHILDREN, MOST_STEPS_DOWN, SOURCE_NODES, TARGET_NODES};

#[derive(Clone, Copy)]
pub enum Shape {
    Deep,
    Wide,
    Mixed,
}

pub const SHAPES: [Shape; 3] = [Shape::Deep, Shape::Wide, Shape::Mixed];

/// A byte string of any kind, at most twice as long as a target may be.
pub fn any(random: &mut Random) -> Vec<u8> {
    match random.below(8) {
        0 | 1 => valid(random),
        2 => overgrown(random),
        3 | 4 => damaged(random, valid),
        5 => damaged(random, overgrown),
        6 => noise(random, 255),
        _ => {
            let highest = random.within(1..=9);
            noise(random, highest)
        }
    }
}

/// A topology that is valid as a target; most are valid as a source too.
pub fn valid(random: &mut Random) -> Vec<u8> {
    let nodes = match random.below(4) {
        0 => random.within(1..=8),
        1 => random.within(1..=SOURCE_NODES),
        2 => random.within(1..=TARGET_NODES),
        _ => random.pick(&[SOURCE_NODES, TARGET_NODES]),
    };
    let shape = random.pick(&SHAPES);
    tree(random, shape, nodes, MOST_STEPS_DOWN, MOST_CHILDREN)
}

/// A complete tree that may have too many nodes, lie too deep or have nodes
/// with too many children.
fn overgrown(random: &mut Random) -> Vec<u8> {
    let nodes = random.within(1..=2 * TARGET_NODES);
    let depth = random.pick(&[MOST_STEPS_DOWN, MOST_STEPS_DOWN + 1, 20]);
    let children = random.pick(&[MOST_CHILDREN, MOST_CHILDREN + 1, 20]);
    let shape = random.pick(&SHAPES);
    tree(random, shape, nodes, depth, children)
}

/// A tree that suffered one accident.
pub fn damaged(random: &mut Random, healthy: impl FnOnce(&mut Random) -> Vec<u8>) -> Vec<u8> {
    let mut bytes = healthy(random);
    let length = bytes.len();
    match random.below(4) {
        0 => bytes.truncate(random.below(length)),
        1 => {
            let room = 2 * TARGET_NODES - length;
            for _ in 0..random.within(1..=3).min(room) {
                bytes.push(random.pick(&[0, 1, 2, 8, 9, 255]));
            }
        }
        2 => {
            // The first byte over a limit is a place of interest.
            let anywhere = random.below(length);
            let at = random.pick(&[anywhere, SOURCE_NODES, TARGET_NODES]);
            let anything = random.below(256) as u8;
            bytes[at.min(length - 1)] = random.pick(&[0, 1, 8, 9, 255, anything]);
        }
        _ => bytes.swap(random.below(length), random.below(length)),
    }
    bytes
}

/// Bytes from 0 to `highest`, with no plan behind them.
fn noise(random: &mut Random, highest: usize) -> Vec<u8> {
    let longest = random.pick(&[8, 2 * TARGET_NODES]);
    let length = random.within(0..=longest);
    (0..length)
        .map(|_| random.within(0..=highest) as u8)
        .collect()
}

/// A tree of that many nodes, one below the other.
pub fn chain(nodes: usize) -> Vec<u8> {
    [vec![1; nodes - 1], vec![0]].concat()
}

/// A tree of at most `nodes` nodes for which a regular chip must be deep. It is
/// made from below: leaves, then one node over another, each over a few like
/// branches and some leaves, and at last over one branch and one leaf.
pub fn steep(random: &mut Random, nodes: usize) -> Vec<u8> {
    let mut tree = over(&[], 0, random.within(0..=MOST_CHILDREN));
    let forks = random.below(MOST_STEPS_DOWN);
    for step in 1..MOST_STEPS_DOWN {
        let branches = random.pick(&[1, 1, 2, 3]);
        let leaves = random.pick(&[0, 1, 1, 1, 2, 3, 4]);
        let above = match step < forks {
            true => over(&tree, branches, leaves),
            false => over(&tree, 1, 1),
        };
        if above.len() <= nodes {
            tree = above;
        }
        if random.one_in(20) {
            break;
        }
    }
    tree
}

/// 32 nodes for which a chip with two children at each inner node must be as deep
/// as it gets, 11: two fans of five and a leaf, below six nodes with two leaves
/// each.
pub fn deepest() -> Vec<u8> {
    let fan = over(&[], 0, 5);
    (0..6).fold(over(&fan, 2, 1), |tree, _| over(&tree, 1, 2))
}

/// A node over so many like branches, and over so many leaves after them.
fn over(branch: &[u8], branches: usize, leaves: usize) -> Vec<u8> {
    let mut bytes = vec![(branches + leaves) as u8];
    bytes.extend(branch.repeat(branches));
    bytes.resize(bytes.len() + leaves, 0);
    bytes
}

/// All trees of that many nodes.
pub fn all_trees(nodes: usize) -> Vec<Vec<u8>> {
    (1..nodes)
        .flat_map(|children| {
            let rows = rows(children, nodes - 1);
            rows.into_iter()
                .map(move |row| [vec![children as u8], row].concat())
        })
        .chain((nodes == 1).then(|| vec![0]))
        .collect()
}

/// All rows of that many trees with that many nodes in all.
fn rows(trees_in_row: usize, nodes: usize) -> Vec<Vec<u8>> {
    if trees_in_row == 0 {
        return if nodes == 0 { vec![vec![]] } else { vec![] };
    }
    let mut all = Vec::new();
    for first in 1..=nodes {
        for tree in all_trees(first) {
            for row in rows(trees_in_row - 1, nodes - first) {
                all.push([tree.clone(), row].concat());
            }
        }
    }
    all
}

/// A tree of exactly `nodes` nodes, at most `depth` deep, with at most
/// `children` children a node. The two must leave room for that many nodes.
pub fn tree(
    random: &mut Random,
    shape: Shape,
    nodes: usize,
    depth: usize,
    children: usize,
) -> Vec<u8> {
    // Nodes are numbered as they come here, not in preorder.
    let mut depth_of = vec![0];
    let mut children_of: Vec<Vec<usize>> = vec![vec![]];
    while depth_of.len() < nodes {
        let new = depth_of.len();
        let parent = match shape {
            _ if random.one_in(6) => random.below(new),
            Shape::Deep => new - 1,
            Shape::Wide => random.below(1 + new / 8),
            Shape::Mixed => random.below(new),
        };
        let siblings = &mut children_of[parent];
        if depth_of[parent] == depth || siblings.len() == children {
            continue;
        }
        siblings.insert(random.within(0..=siblings.len()), new);
        children_of.push(vec![]);
        depth_of.push(depth_of[parent] + 1);
    }
    let mut bytes = Vec::new();
    write(&children_of, 0, &mut bytes);
    bytes
}

/// Writes `node` and all below it in preorder.
fn write(children_of: &[Vec<usize>], node: usize, bytes: &mut Vec<u8>) {
    bytes.push(children_of[node].len() as u8);
    for &child in &children_of[node] {
        write(children_of, child, bytes);
    }
}
