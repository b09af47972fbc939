//! Trees of the second implementation written as the Rattle library has them at
//! its boundary, and read from there. Rules and disciplines are the same on both
//! sides.

use crate::plain;
use crate::queue_tree::State;
use crate::scheduler::{self, Pair, Refusal, Rule, Tree};
use crate::topology::{SOURCE_NODES, TARGET_NODES};
use linduvar::{PairOpened, TreeOpened};

/// No tree: what a refused opening gives.
fn no_tree() -> linduvar::Tree {
    let rule = Rule {
        discipline: 0,
        weight: 0,
    };
    linduvar::Tree {
        state: plain::state(&State::NONE),
        disciplines: scheduler::fresh(&[rule; TARGET_NODES]),
    }
}

pub fn tree(tree: &Tree) -> linduvar::Tree {
    linduvar::Tree {
        state: plain::state(&tree.state()),
        disciplines: tree.disciplines(),
    }
}

/// The state; no tree, which is ill formed, where there are more nodes or entries
/// than there can be.
fn state(plain: &linduvar::Tree) -> State {
    plain::read(&plain.state).unwrap_or(State::NONE)
}

pub fn read(plain: &linduvar::Tree) -> Result<Tree, Refusal> {
    Tree::from_state(&state(plain), &plain.disciplines)
}

pub fn read_chip(plain: &linduvar::Tree, source: &[u8], map: &[u8]) -> Result<Tree, Refusal> {
    Tree::on_chip(source, map, &state(plain), &plain.disciplines)
}

/// Packets held and refusals counted of a chip's tree.
pub fn chip_counts(plain: &linduvar::Tree, source: &[u8]) -> Result<(usize, u32), Refusal> {
    scheduler::chip_counts(source, &state(plain), &plain.disciplines)
}

/// As the library gives a tree back.
pub fn rewritten(plain: &linduvar::Tree) -> linduvar::Tree {
    linduvar::Tree {
        state: plain::rewritten(&plain.state),
        disciplines: plain.disciplines,
    }
}

pub fn opened(opened: &Result<Tree, Refusal>) -> TreeOpened {
    let (tree, refusal) = match opened {
        Ok(opened) => (tree(opened), 0),
        Err(refusal) => (no_tree(), refusal.number()),
    };
    TreeOpened { tree, refusal }
}

pub fn pair_opened(opened: &Result<Pair, Refusal>) -> PairOpened {
    let mut plain = PairOpened {
        source: no_tree(),
        chip: no_tree(),
        map: [0; SOURCE_NODES],
        refusal: 0,
    };
    match opened {
        Ok(pair) => {
            plain.source = tree(&pair.source);
            plain.chip = tree(&pair.chip);
            plain.map[..pair.map.len()].copy_from_slice(&pair.map);
        }
        Err(refusal) => plain.refusal = refusal.number(),
    }
    plain
}
