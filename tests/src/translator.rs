//! The second implementation of carrying a path over: the path as drawn becomes
//! one of the reduced drawing, and from the image of each step's child it goes
//! up the target to the image of the step's node.

use crate::embedding::{read_pair, Pair};
use crate::queue_tree::{Refusal, Step};
use crate::reduced::Reduced;
use crate::topology::Topology;

#[derive(Clone, Debug)]
pub struct Path {
    pub steps: Vec<Step>,
    pub leaf_rank: u64,
}

/// The path carried over, or the number of the refusal.
pub fn carry(source: &[u8], target: &[u8], map: &[u8], path: &Path) -> Result<Path, u8> {
    let translator = Translator::new(source, target, map)?;
    translator.carry(path).map_err(Refusal::number)
}

/// A pair of trees, and a map between them that meets the rules.
#[derive(Clone)]
pub struct Translator {
    pair: Pair,
    reduced: Reduced,
    /// By node of the reduced drawing.
    images: Vec<usize>,
}

impl Translator {
    pub fn new(source: &[u8], target: &[u8], map: &[u8]) -> Result<Translator, u8> {
        let pair = read_pair(source, target)?;
        pair.check(map).map_err(|refusal| refusal as u8)?;
        let reduced = Reduced::new(&pair.source);
        let kept = reduced.kept.iter();
        let images = kept.map(|&node| usize::from(map[node])).collect();
        Ok(Translator {
            pair,
            reduced,
            images,
        })
    }

    pub fn carry(&self, path: &Path) -> Result<Path, Refusal> {
        let drawn = nodes_on(&self.pair.source, &path.steps)?;
        // The steps of a node that is passed over give none.
        let steps = drawn.iter().zip(&path.steps);
        let steps = steps.filter(|(&node, _)| !self.pair.source.is_passed_over(node));
        let steps: Vec<Step> = steps.map(|(_, &step)| step).collect();
        let nodes = nodes_on(&self.reduced.tree, &steps).expect("the path as drawn has no fault");
        let images: Vec<usize> = nodes.iter().map(|&node| self.images[node]).collect();
        // Above a lone leaf's image, and else the first image is the root.
        let mut carried = self.steps_down(0, images[0], 0);
        for (ends, step) in images.windows(2).zip(&steps) {
            carried.extend(self.steps_down(ends[0], ends[1], step.rank));
        }
        Ok(Path {
            steps: carried,
            leaf_rank: path.leaf_rank,
        })
    }

    /// The steps of one rank from a target node down to another.
    fn steps_down(&self, from: usize, to: usize, rank: u64) -> Vec<Step> {
        let numbers = way_down(&self.pair.target, from, to).into_iter();
        numbers.map(|child| Step { child, rank }).collect()
    }

    /// The source node whose image that is, if it is one.
    pub fn drawn(&self, image: usize) -> Option<usize> {
        let place = self.images.iter().position(|&other| other == image);
        place.map(|place| self.reduced.kept[place])
    }
}

/// The nodes that a path names from the root on, the last one a leaf.
fn nodes_on(topology: &Topology, steps: &[Step]) -> Result<Vec<usize>, Refusal> {
    let mut node = 0;
    let mut nodes = vec![node];
    for step in steps {
        let index = usize::from(step.child).checked_sub(1);
        let child = index.and_then(|index| topology.children(node).get(index));
        node = *child.ok_or(Refusal::NoSuchChild)?;
        nodes.push(node);
    }
    if topology.child_count(node) > 0 {
        return Err(Refusal::EndsAboveLeaf);
    }
    Ok(nodes)
}

/// The child numbers that lead from one node down to another below it.
pub fn way_down(topology: &Topology, from: usize, to: usize) -> Vec<u8> {
    let mut numbers = Vec::new();
    let mut node = to;
    while node != from {
        let parent = topology.parent(node).expect("the image above, by rule 4");
        let elder = topology
            .children(parent)
            .iter()
            .take_while(|&&child| child != node);
        numbers.push(elder.count() as u8 + 1);
        node = parent;
    }
    numbers.reverse();
    numbers
}
