//! A chip's tree behind a map, with the disciplines of the source. Paths, leaves
//! and rules are those of the source.

use crate::structs::RulesByValue;
use crate::{Amount, PairOpened, Path, Rules, Tree, TreeAnswer, TreeOpened};

mod boundary {
    use super::*;

    extern "C" {
        pub fn linduvar_pair_open(
            source: *const u8,
            source_length: usize,
            target: *const u8,
            target_length: usize,
            limit: usize,
            rules: RulesByValue,
        ) -> PairOpened;
        pub fn linduvar_chip_open(
            source: *const u8,
            source_length: usize,
            target: *const u8,
            target_length: usize,
            limit: usize,
            rules: RulesByValue,
        ) -> TreeOpened;
        pub fn linduvar_chip_push(
            source: *const u8,
            source_length: usize,
            map: *const u8,
            map_length: usize,
            tree: Tree,
            path: Path,
            packet: u32,
        ) -> TreeAnswer;
        pub fn linduvar_chip_push_to_leaf(
            source: *const u8,
            source_length: usize,
            map: *const u8,
            map_length: usize,
            tree: Tree,
            leaf: usize,
            class: u8,
            length: u16,
            packet: u32,
        ) -> TreeAnswer;
        pub fn linduvar_chip_pop(
            source: *const u8,
            source_length: usize,
            map: *const u8,
            map_length: usize,
            tree: Tree,
        ) -> TreeAnswer;
        pub fn linduvar_chip_held(source: *const u8, source_length: usize, tree: Tree) -> Amount;
        pub fn linduvar_chip_refusals(
            source: *const u8,
            source_length: usize,
            tree: Tree,
        ) -> Amount;
    }
}

/// The bytes of a source, and a map from it to the chip, with one number for each
/// node of the source: what every call on a chip's tree goes by. Use those with
/// which the tree was opened, at every call: no call notices others that pass
/// the tests, and packets may then leave in another order than in the drawing.
#[derive(Clone, Copy, Debug)]
pub struct Behind<'a> {
    pub source: &'a [u8],
    pub map: &'a [u8],
}

// Safety, for every call below: each pointer and the length after it are those
// of one slice, which outlives the call, and the library only reads from it.
// Trees, paths and rules go in and come out by value, laid out as C does.

/// The source's own tree and the chip's tree, both empty, with one packet limit,
/// a rule for each node of the source, and the least map.
pub fn open_both(source: &[u8], target: &[u8], limit: usize, rules: &Rules) -> PairOpened {
    let rules = RulesByValue { rules: *rules };
    unsafe {
        boundary::linduvar_pair_open(
            source.as_ptr(),
            source.len(),
            target.as_ptr(),
            target.len(),
            limit,
            rules,
        )
    }
}

/// The chip's tree alone, which goes by no map.
pub fn open(source: &[u8], target: &[u8], limit: usize, rules: &Rules) -> TreeOpened {
    let rules = RulesByValue { rules: *rules };
    unsafe {
        boundary::linduvar_chip_open(
            source.as_ptr(),
            source.len(),
            target.as_ptr(),
            target.len(),
            limit,
            rules,
        )
    }
}

impl Behind<'_> {
    /// Pushes a packet along a path of the source.
    pub fn push(&self, tree: &Tree, path: &Path, packet: u32) -> TreeAnswer {
        let Behind { source, map } = self;
        unsafe {
            boundary::linduvar_chip_push(
                source.as_ptr(),
                source.len(),
                map.as_ptr(),
                map.len(),
                *tree,
                *path,
                packet,
            )
        }
    }

    /// Pushes a packet to a leaf of the source, with its class and its length.
    pub fn push_to_leaf(
        &self,
        tree: &Tree,
        leaf: usize,
        class: u8,
        length: u16,
        packet: u32,
    ) -> TreeAnswer {
        let Behind { source, map } = self;
        unsafe {
            boundary::linduvar_chip_push_to_leaf(
                source.as_ptr(),
                source.len(),
                map.as_ptr(),
                map.len(),
                *tree,
                leaf,
                class,
                length,
                packet,
            )
        }
    }

    /// Pops the packet at the head.
    pub fn pop(&self, tree: &Tree) -> TreeAnswer {
        let Behind { source, map } = self;
        unsafe {
            boundary::linduvar_chip_pop(
                source.as_ptr(),
                source.len(),
                map.as_ptr(),
                map.len(),
                *tree,
            )
        }
    }

    /// How many packets the tree holds.
    pub fn held(&self, tree: &Tree) -> Amount {
        unsafe { boundary::linduvar_chip_held(self.source.as_ptr(), self.source.len(), *tree) }
    }

    /// How many pushes the tree has refused by 15.
    pub fn refusals(&self, tree: &Tree) -> Amount {
        unsafe { boundary::linduvar_chip_refusals(self.source.as_ptr(), self.source.len(), *tree) }
    }
}
