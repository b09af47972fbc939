//! What crosses the boundary, laid out as C does.

use crate::{MAX_ENTRIES, MAX_SOURCE_NODES, MAX_STEPS, MAX_TARGET_NODES};
use std::mem::offset_of;

/// One step of a path: to a child, by its number from 1, with the rank that it
/// enters the node's queue with.
#[repr(C)]
#[derive(Clone, Copy, Debug, PartialEq, Eq)]
pub struct Step {
    pub child: u8,
    pub rank: u64,
}

/// A path from the root to a leaf: its first `count` steps, and the rank at the
/// leaf. What stands behind them is ignored.
#[repr(C)]
#[derive(Clone, Copy, Debug, PartialEq, Eq)]
pub struct Path {
    pub steps: [Step; MAX_STEPS],
    pub count: usize,
    pub leaf_rank: u64,
}

/// A path that was carried over, with zeros behind its last step; or the refusal
/// and the path as it was given.
#[repr(C)]
#[derive(Clone, Copy, Debug, PartialEq, Eq)]
pub struct Carried {
    pub path: Path,
    pub refusal: u8,
}

/// What a pop takes at a node: the rank at the head of its queue and the child
/// that is named there, 0 at a leaf.
#[repr(C)]
#[derive(Clone, Copy, Debug, PartialEq, Eq)]
pub struct Taken {
    pub node: u8,
    pub child: u8,
    pub rank: u64,
}

/// The way of a pop from the root down: its first `count` places. The others
/// are 0.
#[repr(C)]
#[derive(Clone, Copy, Debug, PartialEq, Eq)]
pub struct Way {
    pub taken: [Taken; MAX_STEPS],
    pub count: usize,
}

/// Why a source has no map into a target: the refusal of the search, or 0. If it
/// is 12, the branch under `node` of the source fits nowhere on the target, and
/// `lack` says what it lacks.
/// [`LACKS_DEPTH`](crate::LACKS_DEPTH): the node is a leaf with `needed` kept
/// nodes above it, and no target node has more than `there` nodes above it.
/// [`LACKS_LEAVES`](crate::LACKS_LEAVES): the branch has `needed` leaves, and a
/// branch of the target where it may go has at most `there`.
/// [`LACKS_ROOM`](crate::LACKS_ROOM): each branch below the node fits somewhere,
/// but not all of them together; `needed` and `there` are 0. If the refusal is not
/// 12, all else is 0.
#[repr(C)]
#[derive(Clone, Copy, Debug, PartialEq, Eq)]
pub struct Diagnosis {
    pub refusal: u8,
    pub lack: u8,
    pub node: usize,
    pub needed: usize,
    pub there: usize,
}

/// An entry of a queue: the child `child` if `tag` is 0, else the packet
/// `packet`. In every answer, even in a refusal, `tag` is 0 or 1 and the number
/// that is not used is 0, whatever was handed in.
#[repr(C)]
#[derive(Clone, Copy, Debug, PartialEq, Eq)]
pub struct Entry {
    pub rank: u64,
    pub tag: u8,
    pub child: u8,
    pub packet: u32,
}

/// What no call alters: the bytes of the tree, their number, and the packet
/// limit.
#[repr(C)]
#[derive(Clone, Copy, Debug, PartialEq, Eq)]
pub struct Frame {
    pub topology: [u8; MAX_TARGET_NODES],
    pub nodes: usize,
    pub limit: usize,
}

/// The state of a queue tree. The queues stand one behind the other in the order
/// of their nodes, each from its head on and as long as its length says. Behind
/// the last node and the last entry there may be anything. `refused` counts the
/// pushes that were refused by 15.
///
/// A call answers 18 unless all of this holds: `nodes` is at most 64; the first
/// `nodes` bytes of `topology` are a tree; `limit` is 1 to 256; the first `nodes`
/// lengths add up to at most 2304; in no queue is a rank lower than the one
/// before it; a leaf has packets only, and an inner node only numbers of its own
/// children, each as often as there are packets under that child; and there are
/// at most `limit` packets. Nothing else is tested, so that a damaged state may
/// be served.
#[repr(C)]
#[derive(Clone, Copy, Debug, PartialEq, Eq)]
pub struct State {
    pub frame: Frame,
    pub lengths: [u16; MAX_TARGET_NODES],
    pub entries: [Entry; MAX_ENTRIES],
    pub refused: u32,
}

/// The empty tree; or the refusal and a state of zeros, which every call refuses
/// by 18.
#[repr(C)]
#[derive(Clone, Copy, Debug, PartialEq, Eq)]
pub struct Opened {
    pub state: State,
    pub refusal: u8,
}

/// The state after a call, the refusal or 0, and a value: the packets held after
/// a push, the packet that departs, or the new count of refusals after a push
/// that is refused by 15; else 0.
#[repr(C)]
#[derive(Clone, Copy, Debug, PartialEq, Eq)]
pub struct Answer {
    pub state: State,
    pub refusal: u8,
    pub value: u32,
}

/// The answer to a pop, and the way of the packet that departs; no way if it is
/// refused.
#[repr(C)]
#[derive(Clone, Copy, Debug, PartialEq, Eq)]
pub struct Popped {
    pub answer: Answer,
    pub way: Way,
}

/// A count; or the refusal and 0.
#[repr(C)]
#[derive(Clone, Copy, Debug, PartialEq, Eq)]
pub struct Amount {
    pub refusal: u8,
    pub value: u32,
}

/// The rule of a node: its discipline, and its weight as a child of a weighted
/// node.
#[repr(C)]
#[derive(Clone, Copy, Debug, PartialEq, Eq)]
pub struct Rule {
    pub discipline: u8,
    pub weight: u8,
}

/// The rules by node of the drawing. Those past its last node are ignored.
pub type Rules = [Rule; MAX_TARGET_NODES];

/// The rules as a call takes them: C passes an array by value only in a struct.
#[repr(C)]
#[derive(Clone, Copy)]
pub(crate) struct RulesByValue {
    pub(crate) rules: Rules,
}

/// All by node of the drawing: the rules, the virtual time of each node, and the
/// last finish of each node as a child of its parent.
/// Only a weighted node with more than one child keeps a virtual time and the
/// finishes of its children; the other numbers mean nothing and stay as they came.
#[repr(C)]
#[derive(Clone, Copy, Debug, PartialEq, Eq)]
pub struct Disciplines {
    pub rules: Rules,
    pub virtual_time: [u64; MAX_TARGET_NODES],
    pub finish: [u64; MAX_TARGET_NODES],
}

/// A queue tree with disciplines: a tree by itself, or a chip's tree. Of the
/// disciplines 18 tests what 24 tests at an opening, the rules of the nodes of the
/// drawing, and nothing else: virtual times and finishes may be any numbers.
#[repr(C)]
#[derive(Clone, Copy, Debug, PartialEq, Eq)]
pub struct Tree {
    pub state: State,
    pub disciplines: Disciplines,
}

/// The empty tree; or the refusal and a tree of zeros, which every call refuses
/// by 18.
#[repr(C)]
#[derive(Clone, Copy, Debug, PartialEq, Eq)]
pub struct TreeOpened {
    pub tree: Tree,
    pub refusal: u8,
}

/// The tree after a call, the refusal or 0, and a value as in [`Answer`].
#[repr(C)]
#[derive(Clone, Copy, Debug, PartialEq, Eq)]
pub struct TreeAnswer {
    pub tree: Tree,
    pub refusal: u8,
    pub value: u32,
}

/// Both empty trees and the least map between them; or the refusal and zeros
/// throughout.
#[repr(C)]
#[derive(Clone, Copy, Debug, PartialEq, Eq)]
pub struct PairOpened {
    pub source: Tree,
    pub chip: Tree,
    pub map: [u8; MAX_SOURCE_NODES],
    pub refusal: u8,
}

impl Path {
    /// Only the first nine steps of a longer path; zeros past the last step.
    pub fn new(steps: &[Step], leaf_rank: u64) -> Path {
        let mut path = Path {
            steps: [Step { child: 0, rank: 0 }; MAX_STEPS],
            count: steps.len().min(MAX_STEPS),
            leaf_rank,
        };
        path.steps[..path.count].copy_from_slice(&steps[..path.count]);
        path
    }

    /// The steps; a count above nine reads as nine.
    pub fn steps(&self) -> &[Step] {
        &self.steps[..self.count.min(MAX_STEPS)]
    }
}

impl Way {
    /// What was taken; a count above nine reads as nine.
    pub fn taken(&self) -> &[Taken] {
        &self.taken[..self.count.min(MAX_STEPS)]
    }
}

/// A struct's size and the offsets of its fields.
macro_rules! layout {
    ($name:ident, $size:literal: $($field:ident $offset:literal),+) => {
        assert!(size_of::<$name>() == $size);
        $(assert!(offset_of!($name, $field) == $offset);)+
    };
}

// The layouts that the library has.
const _: () = {
    layout!(Step, 16: child 0, rank 8);
    layout!(Path, 160: steps 0, count 144, leaf_rank 152);
    layout!(Carried, 168: path 0, refusal 160);
    layout!(Taken, 16: node 0, child 1, rank 8);
    layout!(Way, 152: taken 0, count 144);
    layout!(Diagnosis, 32: refusal 0, lack 1, node 8, needed 16, there 24);
    layout!(Entry, 16: rank 0, tag 8, child 9, packet 12);
    layout!(Frame, 80: topology 0, nodes 64, limit 72);
    layout!(State, 37_080: frame 0, lengths 80, entries 208, refused 37_072);
    layout!(Opened, 37_088: state 0, refusal 37_080);
    layout!(Answer, 37_088: state 0, refusal 37_080, value 37_084);
    layout!(Popped, 37_240: answer 0, way 37_088);
    layout!(Amount, 8: refusal 0, value 4);
    layout!(Rule, 2: discipline 0, weight 1);
    layout!(RulesByValue, 128: rules 0);
    layout!(Disciplines, 1152: rules 0, virtual_time 128, finish 640);
    layout!(Tree, 38_232: state 0, disciplines 37_080);
    layout!(TreeOpened, 38_240: tree 0, refusal 38_232);
    layout!(TreeAnswer, 38_240: tree 0, refusal 38_232, value 38_236);
    layout!(PairOpened, 76_504: source 0, chip 38_232, map 76_464, refusal 76_496);
};
