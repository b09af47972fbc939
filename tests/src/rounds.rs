//! Many calls of the Rattle library at once, for the benchmark, made safe to
//! call. A state or a tree that is not well formed stays.

use linduvar::{Path, State, Tree};

mod boundary {
    use super::*;

    extern "C" {
        pub fn linduvar_rounds(state: State, first: Path, second: Path, rounds: u32) -> State;
        pub fn linduvar_tree_rounds(
            tree: Tree,
            leaf: usize,
            class: u8,
            length: u16,
            rounds: u32,
        ) -> Tree;
        pub fn linduvar_tree_path_rounds(tree: Tree, path: Path, rounds: u32) -> Tree;
    }
}

// Safety, for every call below: states, trees and paths go in and come out by
// value, and the types are those of the library, laid out as C does.

/// As `queue_tree::rounds` does.
pub fn queue(state: &State, first: &Path, second: &Path, rounds: u32) -> State {
    unsafe { boundary::linduvar_rounds(*state, *first, *second, rounds) }
}

/// As `scheduler::rounds` does.
pub fn to_leaf(tree: &Tree, leaf: usize, class: u8, length: u16, rounds: u32) -> Tree {
    unsafe { boundary::linduvar_tree_rounds(*tree, leaf, class, length, rounds) }
}

/// As `scheduler::path_rounds` does.
pub fn by_path(tree: &Tree, path: &Path, rounds: u32) -> Tree {
    unsafe { boundary::linduvar_tree_path_rounds(*tree, *path, rounds) }
}
