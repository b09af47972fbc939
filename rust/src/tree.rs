//! A tree with disciplines by itself.

use crate::structs::RulesByValue;
use crate::{Amount, Path, Rules, Tree, TreeAnswer, TreeOpened};

mod boundary {
    use super::*;

    extern "C" {
        pub fn linduvar_tree_open(
            bytes: *const u8,
            length: usize,
            limit: usize,
            rules: RulesByValue,
        ) -> TreeOpened;
        pub fn linduvar_tree_push(tree: Tree, path: Path, packet: u32) -> TreeAnswer;
        pub fn linduvar_tree_push_to_leaf(
            tree: Tree,
            leaf: usize,
            class: u8,
            length: u16,
            packet: u32,
        ) -> TreeAnswer;
        pub fn linduvar_tree_pop(tree: Tree) -> TreeAnswer;
        pub fn linduvar_tree_held(tree: Tree) -> Amount;
        pub fn linduvar_tree_refusals(tree: Tree) -> Amount;
    }
}

// Safety, for every call below: trees, paths and rules go in and come out by
// value, and the types are those of the library, laid out as C does. The
// pointer and the length of a topology are those of one slice, which outlives
// the call, and the library only reads from it.

/// An empty tree with a packet limit and a rule for each of its nodes.
pub fn open(topology: &[u8], limit: usize, rules: &Rules) -> TreeOpened {
    let rules = RulesByValue { rules: *rules };
    unsafe { boundary::linduvar_tree_open(topology.as_ptr(), topology.len(), limit, rules) }
}

/// Pushes a packet along a path, with the ranks of the path.
pub fn push(tree: &Tree, path: &Path, packet: u32) -> TreeAnswer {
    unsafe { boundary::linduvar_tree_push(*tree, *path, packet) }
}

/// Pushes a packet to a leaf, by its node number, with its class and its length;
/// the disciplines give the ranks.
pub fn push_to_leaf(tree: &Tree, leaf: usize, class: u8, length: u16, packet: u32) -> TreeAnswer {
    unsafe { boundary::linduvar_tree_push_to_leaf(*tree, leaf, class, length, packet) }
}

/// Pops the packet at the head.
pub fn pop(tree: &Tree) -> TreeAnswer {
    unsafe { boundary::linduvar_tree_pop(*tree) }
}

/// How many packets the tree holds.
pub fn held(tree: &Tree) -> Amount {
    unsafe { boundary::linduvar_tree_held(*tree) }
}

/// How many pushes the tree has refused by 15.
pub fn refusals(tree: &Tree) -> Amount {
    unsafe { boundary::linduvar_tree_refusals(*tree) }
}
