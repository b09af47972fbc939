//! The second implementation of the diagnosis: which branch of a drawing fits
//! nowhere on a chip, and what it lacks.
//!
//! It does not search for a map. A matcher shares sets of children out among the
//! branches of the chip, and remembers its answers; where every branch of the
//! drawing fits somewhere, the drawing loads.

use crate::embedding::{read_pair, Pair, Refusal};
use crate::reduced::Reduced;
use crate::topology::{Topology, MOST_CHILDREN};
use linduvar::{Diagnosis, LACKS_DEPTH, LACKS_LEAVES, LACKS_ROOM};
use std::collections::HashMap;

/// Why the source has no map into the target.
pub fn why(source: &[u8], target: &[u8]) -> Diagnosis {
    match read_pair(source, target) {
        Ok(pair) => of_pair(&pair),
        Err(refusal) => refused(refusal),
    }
}

fn refused(refusal: u8) -> Diagnosis {
    Diagnosis {
        refusal,
        lack: 0,
        node: 0,
        needed: 0,
        there: 0,
    }
}

fn of_pair(pair: &Pair) -> Diagnosis {
    let reduced = Reduced::new(&pair.source);
    let mut matcher = Matcher::new(&reduced.tree, &pair.target);
    let misfit = (0..reduced.kept.len())
        .rev()
        .find(|&node| matcher.fits_nowhere(node));
    let Some(misfit) = misfit else {
        return refused(0);
    };
    let (lack, needed, there) = lack(&reduced.tree, &pair.target, misfit);
    Diagnosis {
        refusal: Refusal::NoMap as u8,
        lack,
        node: reduced.kept[misfit],
        needed,
        there,
    }
}

/// What the misfit, a node of the reduced drawing, lacks, how much of it is
/// needed and how much is there.
fn lack(drawing: &Topology, chip: &Topology, misfit: usize) -> (u8, usize, usize) {
    if drawing.is_leaf(misfit) {
        let deepest = (0..chip.node_count()).map(|place| chip.depth(place)).max();
        let deepest = deepest.expect("a chip has a node");
        return (LACKS_DEPTH, drawing.depth(misfit), deepest);
    }
    let needed = leaf_count(drawing, misfit);
    let places = places(drawing, chip, misfit);
    let there = places.iter().map(|&place| leaf_count(chip, place)).max();
    let there = there.unwrap_or(0);
    if there < needed {
        (LACKS_LEAVES, needed, there)
    } else {
        (LACKS_ROOM, 0, 0)
    }
}

/// Where on the chip a node of the reduced drawing may go: the top node to the
/// root, any other to nodes that lie at least as deep as it does.
pub fn places(drawing: &Topology, chip: &Topology, node: usize) -> Vec<usize> {
    if node == 0 {
        return vec![0];
    }
    let depth = drawing.depth(node);
    (0..chip.node_count())
        .filter(|&place| chip.depth(place) >= depth)
        .collect()
}

fn leaf_count(tree: &Topology, node: usize) -> usize {
    if tree.is_leaf(node) {
        return 1;
    }
    let children = tree.children(node).iter();
    children.map(|&child| leaf_count(tree, child)).sum()
}

/// A reduced drawing to be matched with a chip.
struct Matcher<'a> {
    drawing: &'a Topology,
    chip: &'a Topology,
    /// How many leaves each branch of the chip has.
    chip_leaves: Vec<usize>,
    /// The answers of `shared` to a node, a set, a place and a first child.
    known: HashMap<(usize, u8, usize, usize), bool>,
}

impl<'a> Matcher<'a> {
    fn new(drawing: &'a Topology, chip: &'a Topology) -> Matcher<'a> {
        let places = 0..chip.node_count();
        Matcher {
            drawing,
            chip,
            chip_leaves: places.map(|place| leaf_count(chip, place)).collect(),
            known: HashMap::new(),
        }
    }

    /// Whether the branch under `node` fits no branch where it may go.
    fn fits_nowhere(&mut self, node: usize) -> bool {
        let places = places(self.drawing, self.chip, node);
        !places.into_iter().any(|place| self.fits(node, place))
    }

    /// Whether the branch under `node`, as a drawing by itself, has a map into
    /// the branch under `place`. A leaf by itself goes to any leaf there.
    fn fits(&mut self, node: usize, place: usize) -> bool {
        self.drawing.is_leaf(node) || self.goes(node, place)
    }

    /// Whether `node` may have the image `place`, with images for all below it.
    fn goes(&mut self, node: usize, place: usize) -> bool {
        match self.drawing.child_count(node) {
            0 => self.chip.is_leaf(place),
            children => self.shared(node, u8::MAX >> (MOST_CHILDREN - children), place, 0),
        }
    }

    /// Whether a set of the children of `node`, a bit for each, has images, none
    /// above another, in the branches under the children of `place` from `first` on.
    /// Each of these branches gets a part of the set.
    fn shared(&mut self, node: usize, set: u8, place: usize, first: usize) -> bool {
        if set == 0 {
            return true;
        }
        let Some(&branch) = self.chip.children(place).get(first) else {
            return false;
        };
        let question = (node, set, place, first);
        if let Some(&answer) = self.known.get(&question) {
            return answer;
        }
        let answer = (0..=set).filter(|part| part & !set == 0).any(|part| {
            self.held(node, part, branch) && self.shared(node, set & !part, place, first + 1)
        });
        self.known.insert(question, answer);
        answer
    }

    /// Whether a set of the children of `node` has images in the branch under
    /// `place`: one alone may be at its top, and each needs a leaf.
    fn held(&mut self, node: usize, set: u8, place: usize) -> bool {
        if set.count_ones() as usize > self.chip_leaves[place] {
            return false;
        }
        if set.is_power_of_two() {
            let child = self.drawing.children(node)[set.ilog2() as usize];
            if self.goes(child, place) {
                return true;
            }
        }
        self.shared(node, set, place, 0)
    }
}
