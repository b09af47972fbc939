//! Calls on a tree with disciplines, and random ones of every kind.

use crate::queue_tree;
use crate::random::Random;
use crate::scheduler::{Disciplines, Refusal, Tree, STRICT, WEIGHTED};
use crate::states::{any_path, Habits};
use crate::topology::Topology;
use crate::translator::Path;
use linduvar::chip::Behind;
use linduvar::tree;

#[derive(Clone, Debug)]
pub enum Request {
    Push {
        path: linduvar::Path,
        packet: u32,
    },
    PushToLeaf {
        leaf: usize,
        class: u8,
        length: u16,
        packet: u32,
    },
    Pop,
}

/// 0 or the refusal, with the packets then held, the packet that departs, the
/// count that 15 returns, or 0.
pub type Answer = (u8, u32);

pub fn refused(refusal: Refusal) -> Answer {
    let count = match refusal {
        Refusal::Queues(queue_tree::Refusal::Full(count)) => count,
        _ => 0,
    };
    (refusal.number(), count)
}

impl Request {
    pub fn name(&self) -> &'static str {
        match self {
            Request::Push { .. } => "push",
            Request::PushToLeaf { .. } => "push to a leaf",
            Request::Pop => "pop",
        }
    }

    /// Makes the call on a tree of the second implementation.
    pub fn by_rust(&self, tree: &mut Tree) -> Answer {
        let value = match *self {
            Request::Push { path, packet } => {
                let (steps, leaf_rank) = (path.steps().to_vec(), path.leaf_rank);
                let held = tree.push(&Path { steps, leaf_rank }, packet);
                held.map(|held| held as u32)
            }
            Request::PushToLeaf {
                leaf,
                class,
                length,
                packet,
            } => {
                let held = tree.push_to_leaf(leaf, class, length, packet);
                held.map(|held| held as u32)
            }
            Request::Pop => tree.pop(),
        };
        match value {
            Ok(value) => (0, value),
            Err(refusal) => refused(refusal),
        }
    }

    /// Makes the call on a tree by itself of the library.
    pub fn by_rattle(&self, tree: &linduvar::Tree) -> linduvar::TreeAnswer {
        match *self {
            Request::Push { path, packet } => tree::push(tree, &path, packet),
            Request::PushToLeaf {
                leaf,
                class,
                length,
                packet,
            } => tree::push_to_leaf(tree, leaf, class, length, packet),
            Request::Pop => tree::pop(tree),
        }
    }

    /// Makes the call on a chip's tree of the library.
    pub fn by_rattle_chip(&self, chip: Behind, tree: &linduvar::Tree) -> linduvar::TreeAnswer {
        match *self {
            Request::Push { path, packet } => chip.push(tree, &path, packet),
            Request::PushToLeaf {
                leaf,
                class,
                length,
                packet,
            } => chip.push_to_leaf(tree, leaf, class, length, packet),
            Request::Pop => chip.pop(tree),
        }
    }
}

/// What disciplines at nodes that are passed over would do to a push to a leaf,
/// did they do anything.
pub fn passed_over(
    drawing: &Topology,
    disciplines: &Disciplines,
    request: &Request,
) -> Vec<&'static str> {
    let mut met = Vec::new();
    let Request::PushToLeaf { leaf, length, .. } = *request else {
        return met;
    };
    let Disciplines {
        rules,
        virtual_time,
        finish,
    } = disciplines;
    let mut child = leaf;
    while let Some(node) = drawing.parent(child) {
        if drawing.is_passed_over(node) && rules[node].discipline == STRICT {
            met.push("passed over: strict");
        }
        if drawing.is_passed_over(node) && rules[node].discipline == WEIGHTED {
            met.push("passed over: weighted");
            let service = u64::from(length) * 256 / u64::from(rules[child].weight);
            if virtual_time[node].max(finish[child]) > u64::MAX - service {
                met.push("passed over: a finish above the largest");
            }
        }
        child = node;
    }
    met
}

/// All that `passed_over` can name.
pub const PASSED_OVER_KINDS: [&str; 3] = [
    "passed over: strict",
    "passed over: weighted",
    "passed over: a finish above the largest",
];

/// A push by path or to a leaf, right or at fault, with its kind and the answer
/// that this kind gets where it can be made and nothing comes before it.
pub fn any_push(
    drawing: &[u8],
    habits: &Habits,
    random: &mut Random,
) -> (Request, &'static str, u8) {
    let packet = habits.packet(random);
    if random.one_in(3) {
        let (path, kind, answer) = any_path(drawing, habits, random);
        return (Request::Push { path, packet }, kind, answer);
    }
    let (leaf, kind, answer) = any_leaf(drawing, random);
    let request = Request::PushToLeaf {
        leaf,
        class: class(random),
        length: length(random),
        packet,
    };
    (request, kind, answer)
}

/// The kinds of numbers that a push names as its leaf.
pub const LEAVES: [(&str, u8); 4] = [
    ("leaf", 0),
    ("inner node", 25),
    ("past the last node", 25),
    ("far past the last node", 25),
];

fn any_leaf(drawing: &[u8], random: &mut Random) -> (usize, &'static str, u8) {
    let nodes = drawing.len();
    let (leaves, inner): (Vec<usize>, Vec<usize>) =
        (0..nodes).partition(|&node| drawing[node] == 0);
    let leaf = random.pick(&leaves);
    let (kind, answer) = match random.one_in(5) {
        true => random.pick(&LEAVES),
        false => LEAVES[0],
    };
    let named = match kind {
        "inner node" if !inner.is_empty() => random.pick(&inner),
        "past the last node" => random.pick(&[nodes, nodes + 1, nodes.max(63) + 1]),
        // In fewer bits some of these would be the leaf.
        "far past the last node" => {
            random.pick(&[256 + leaf, (1 << 16) + leaf, (1 << 32) + leaf, usize::MAX])
        }
        _ => leaf,
    };
    (named, kind, answer)
}

/// Often the least and the greatest.
pub fn length(random: &mut Random) -> u16 {
    let any = random.number() as u16;
    random.pick(&[0, u16::MAX, 1, 300, any])
}

fn class(random: &mut Random) -> u8 {
    let (few, any) = (random.below(3) as u8, random.below(256) as u8);
    random.pick(&[0, u8::MAX, few, any])
}

/// Some leaf of a drawing.
pub fn some_leaf(drawing: &Topology, random: &mut Random) -> usize {
    let nodes = 0..drawing.node_count();
    let leaves: Vec<usize> = nodes.filter(|&node| drawing.is_leaf(node)).collect();
    random.pick(&leaves)
}
