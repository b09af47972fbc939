//! The second implementation of request 2.3: the least depth of a complete tree
//! into which a drawing has a map.
//!
//! A node of a complete tree that stands h steps above the leaves has a complete
//! tree of depth h below it. So a branch of the drawing is known, for this
//! purpose, by the least height of a chip node that may be its image: it may go
//! to every chip node of that height.

use crate::reduced::Reduced;
use crate::topology::{Topology, MOST_CHILDREN, SOURCE_NODES};
use std::cmp::Reverse;
use std::collections::BinaryHeap;
use std::ops::RangeInclusive;

/// The refusal of a number of children, with the paper's number.
pub const NO_SUCH_CHIP: u8 = 27;

/// An inner node of a chip has from 2 to 8 children.
pub const CHILDREN: RangeInclusive<usize> = 2..=MOST_CHILDREN;

/// The least depth at which the drawing has a map into the complete tree with
/// `d` children at each inner node, or the refusal's number.
pub fn least_depth(source: &[u8], d: usize) -> Result<usize, u8> {
    let drawing = Topology::read(source, SOURCE_NODES).map_err(|refusal| refusal as u8)?;
    if !CHILDREN.contains(&d) {
        return Err(NO_SUCH_CHIP);
    }
    Ok(height(&Reduced::new(&drawing).tree, 0, d))
}

/// The least height of a chip node that may be the image of a node of the
/// reduced drawing. A node that is not a leaf has two children or more, and a
/// chip node that has the images of both below it is neither of them.
fn height(tree: &Topology, node: usize, d: usize) -> usize {
    let children = tree.children(node).iter();
    let heights = children.map(|&child| Reverse(height(tree, child, d)));
    merged(heights.collect(), d)
}

/// The depth of the least complete tree that has room for branches of these
/// heights, none above another, by merging as in Huffman's construction: up to
/// `d` branches of the lowest height become one that is a step higher, until one
/// is left. A node without branches is a leaf, of height 0.
///
/// Why that is right. Let there be two branches or more, n of them of the lowest
/// height h. Wherever all have room, each can lie at a node of just its height,
/// since a node that is higher has such a node below it. None lies at the root,
/// so the nodes of the n lowest have parents, of height h + 1, and each of these
/// has at most d of them below it: there are n / d parents, rounded up, or more.
/// The node of any other branch is as high as a parent or higher. Were it related
/// to a parent, it would be that parent or lie above it, and so lie above one of
/// the lowest branches, which it does not. So all other branches have room beside
/// n / d branches, rounded up, of height h + 1; and where these have room, the n
/// have room below them. Merging makes just so many of the n.
fn merged(mut branches: BinaryHeap<Reverse<usize>>, d: usize) -> usize {
    while branches.len() > 1 {
        let lowest = branches.peek().copied();
        for _ in 0..d {
            if branches.peek().copied() == lowest {
                branches.pop();
            }
        }
        branches.extend(lowest.map(|Reverse(height)| Reverse(height + 1)));
    }
    branches.pop().map_or(0, |Reverse(height)| height)
}

/// The complete tree of that depth with `d` children at each inner node, as
/// bytes.
pub fn complete(d: usize, depth: usize) -> Vec<u8> {
    match depth {
        0 => vec![0],
        _ => [vec![d as u8], complete(d, depth - 1).repeat(d)].concat(),
    }
}

/// How many nodes the complete tree has, and how many of them are leaves: each
/// level has `d` times as many as the one above it.
pub fn size(d: usize, depth: usize) -> (usize, usize) {
    let mut leaves = 1;
    let mut nodes = 1;
    for _ in 0..depth {
        leaves *= d;
        nodes += leaves;
    }
    (nodes, leaves)
}
