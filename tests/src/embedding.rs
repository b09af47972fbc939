//! The second implementation of the map check and of the search.
//!
//! The check holds the four rules against every pair of kept nodes, as they are
//! drawn. There are two searches: one tries every list that the rules leave
//! open, and is slow on large trees; the other contracts the drawing and weighs
//! sets of children, and never is.

use crate::reduced::{Reduced, PASSED_OVER};
use crate::topology::{Topology, SOURCE_NODES, TARGET_NODES};

/// The refusals of maps, with the paper's numbers.
#[derive(Clone, Copy, Debug, PartialEq, Eq)]
#[repr(u8)]
pub enum Refusal {
    MapLength = 6,
    ImagePastTheEnd = 7,
    Rule1 = 8,
    Rule2 = 9,
    Rule3 = 10,
    Rule4 = 11,
    NoMap = 12,
    /// Another number than 255 at a node that is passed over.
    NotPassedOver = 26,
}

/// Reads both topologies; the number of the refusal if one is at fault.
pub fn read_pair(source: &[u8], target: &[u8]) -> Result<Pair, u8> {
    let source = Topology::read(source, SOURCE_NODES).map_err(|refusal| refusal as u8)?;
    let target = Topology::read(target, TARGET_NODES).map_err(|refusal| refusal as u8)?;
    Ok(Pair { source, target })
}

/// The answer of the check as a number: 0 if the map passes.
pub fn check(source: &[u8], target: &[u8], map: &[u8]) -> u8 {
    match read_pair(source, target) {
        Ok(pair) => pair.check(map).map_or_else(|refusal| refusal as u8, |()| 0),
        Err(refusal) => refusal,
    }
}

/// The answer of the search as a number, and its 32 bytes.
pub fn search(source: &[u8], target: &[u8]) -> (u8, [u8; SOURCE_NODES]) {
    let mut map = [0; SOURCE_NODES];
    let answer = match read_pair(source, target) {
        Ok(pair) => match pair.least_map() {
            Ok(images) => {
                map[..images.len()].copy_from_slice(&images);
                0
            }
            Err(refusal) => refusal as u8,
        },
        Err(refusal) => refusal,
    };
    (answer, map)
}

/// A source and a target, both valid.
#[derive(Clone)]
pub struct Pair {
    pub source: Topology,
    pub target: Topology,
}

impl Pair {
    /// The four rules as they are written, after the tests that make the list
    /// one target node for each kept node and 255 for each passed one.
    pub fn check(&self, map: &[u8]) -> Result<(), Refusal> {
        let Pair { source, target } = self;
        let nodes = source.node_count();
        if map.len() != nodes {
            return Err(Refusal::MapLength);
        }
        let (passed, kept): (Vec<usize>, Vec<usize>) =
            (0..nodes).partition(|&node| source.is_passed_over(node));
        if passed.iter().any(|&node| map[node] != PASSED_OVER) {
            return Err(Refusal::NotPassedOver);
        }
        let image = |node: usize| usize::from(map[node]);
        if kept.iter().any(|&node| image(node) >= target.node_count()) {
            return Err(Refusal::ImagePastTheEnd);
        }
        let any_two = |fault: &dyn Fn(usize, usize) -> bool| {
            let mut firsts = kept.iter();
            firsts.any(|&first| kept.iter().any(|&second| fault(first, second)))
        };
        if any_two(&|first, second| first != second && image(first) == image(second)) {
            return Err(Refusal::Rule1);
        }
        if !self.may_be_top(image(kept[0])) {
            return Err(Refusal::Rule2);
        }
        let mut leaves = kept.iter().filter(|&&node| source.is_leaf(node));
        if leaves.any(|&leaf| !target.is_leaf(image(leaf))) {
            return Err(Refusal::Rule3);
        }
        if any_two(&|first, second| {
            source.is_above(first, second) != target.is_above(image(first), image(second))
        }) {
            return Err(Refusal::Rule4);
        }
        Ok(())
    }

    /// Rule 2 for the top node of what is left. It lapses for a lone leaf: then
    /// every node but that leaf has one child.
    fn may_be_top(&self, image: usize) -> bool {
        let leaf = self.source.node_count() - 1;
        image == 0 || (0..leaf).all(|node| self.source.is_passed_over(node))
    }

    /// Tries the lists in rising order, and gives up on a list at the first
    /// node that breaks a rule with those before it.
    pub fn least_map_by_trying(&self) -> Result<Vec<u8>, Refusal> {
        let mut map = Vec::new();
        if self.try_the_rest(&mut map) {
            Ok(map)
        } else {
            Err(Refusal::NoMap)
        }
    }

    fn try_the_rest(&self, map: &mut Vec<u8>) -> bool {
        if map.len() == self.source.node_count() {
            return self.check(map).is_ok();
        }
        let images = match self.source.is_passed_over(map.len()) {
            true => PASSED_OVER..=PASSED_OVER,
            false => 0..=self.target.node_count() as u8 - 1,
        };
        for image in images {
            if self.can_follow(map, image) {
                map.push(image);
                if self.try_the_rest(map) {
                    return true;
                }
                map.pop();
            }
        }
        false
    }

    /// Whether the next source node may go to `image`, as far as the rules
    /// speak of it and the nodes before it.
    fn can_follow(&self, map: &[u8], image: u8) -> bool {
        let Pair { source, target } = self;
        let (node, image) = (map.len(), usize::from(image));
        if source.is_passed_over(node) {
            return true;
        }
        let mut kept = (0..node).filter(|&node| !source.is_passed_over(node));
        let is_top = kept.clone().next().is_none();
        if is_top && !self.may_be_top(image) || source.is_leaf(node) && !target.is_leaf(image) {
            return false;
        }
        kept.all(|before| {
            let its_image = usize::from(map[before]);
            its_image != image
                && source.is_above(before, node) == target.is_above(its_image, image)
                && source.is_above(node, before) == target.is_above(image, its_image)
        })
    }

    /// The least map: that of the reduced drawing, and 255 for each node that
    /// is passed over.
    pub fn least_map(&self) -> Result<Vec<u8>, Refusal> {
        let reduced = Reduced::new(&self.source);
        let placing = Placing::new(&reduced.tree, &self.target);
        let images = placing.least_images().ok_or(Refusal::NoMap)?;
        Ok(reduced.spread(&self.source, &images))
    }
}

/// A reduced drawing to be placed in a target.
///
/// The rules come down to this: the images of a node's children lie below its
/// own, none above another, and leaves go to leaves. So the branches under
/// siblings are placed independently once the siblings are, and in list order
/// each node takes the first image that leaves its later siblings enough room.
struct Placing<'a> {
    source: &'a Topology,
    target: &'a Topology,
    /// For each source node and each target node, whether the branch under the
    /// first has a map into the branch under the second, root to root.
    fits: Vec<Vec<bool>>,
}

impl<'a> Placing<'a> {
    fn new(source: &'a Topology, target: &'a Topology) -> Placing<'a> {
        let fits = fits(source, target);
        Placing {
            source,
            target,
            fits,
        }
    }

    /// The images of the least map, found without going back; None where there
    /// is no map.
    fn least_images(&self) -> Option<Vec<u8>> {
        // A lone leaf may go to any leaf, and else the root goes to the root.
        let tops = match self.source.is_leaf(0) {
            true => self.target.node_count(),
            false => 1,
        };
        let top = (0..tops).find(|&image| self.fits[0][image])?;
        let mut images = vec![0; self.source.node_count()];
        images[0] = top as u8;
        for node in 0..self.source.node_count() {
            self.place_children(node, &mut images);
        }
        Some(images)
    }

    /// Gives each child of `node`, which has its image, the least image that
    /// leaves room for those after it.
    fn place_children(&self, node: usize, images: &mut [u8]) {
        let top = usize::from(images[node]);
        let mut rest = self.source.children(node);
        let mut taken = Vec::new();
        while let [child, later @ ..] = rest {
            let fits = &self.fits[*child];
            let image = (top + 1..self.target.branch_end(top)).find(|&image| {
                if !fits[image] || taken.iter().any(|&other| self.related(image, other)) {
                    return false;
                }
                taken.push(image);
                let room = self.room_below(later, top, &taken);
                taken.pop();
                room.takes_all(later.len())
            });
            let image = image.expect("a branch that fits has room for every child");
            images[*child] = image as u8;
            taken.push(image);
            rest = later;
        }
    }

    /// What sets of `children` find room below `top` if none of them may lie
    /// at a node of `taken`, or above or below it.
    fn room_below(&self, children: &[usize], top: usize, taken: &[usize]) -> Room {
        let mut room = Room::none();
        for &place in self.target.children(top) {
            if taken.contains(&place) {
                continue;
            }
            let mut here = self.room_below(children, place, taken);
            if !taken
                .iter()
                .any(|&other| self.target.is_above(place, other))
            {
                here.add_singles(children, |child| self.fits[child][place]);
            }
            room = room.beside(&here);
        }
        room
    }

    /// Whether two target nodes are one, or one lies above the other.
    fn related(&self, a: usize, b: usize) -> bool {
        self.target.is_above(a, b) || self.target.is_above(b, a)
    }
}

/// The table of `Placing`.
fn fits(source: &Topology, target: &Topology) -> Vec<Vec<bool>> {
    let mut fits = vec![vec![false; target.node_count()]; source.node_count()];
    // What lies below a node has higher numbers.
    for node in (0..source.node_count()).rev() {
        let children = source.children(node);
        if children.is_empty() {
            fits[node] = (0..target.node_count())
                .map(|place| target.is_leaf(place))
                .collect();
            continue;
        }
        let mut rooms = vec![Room::none(); target.node_count()];
        for place in (0..target.node_count()).rev() {
            let mut room = Room::none();
            for &below in target.children(place) {
                room = room.beside(&rooms[below]);
            }
            fits[node][place] = room.takes_all(children.len());
            room.add_singles(children, |child| fits[child][place]);
            rooms[place] = room;
        }
    }
    fits
}

/// A part of the target, by what it has room for: those sets of a source
/// node's children that can all be placed in it, none above another.
///
/// A set is the sum of a bit for each child, at most 8 of them.
#[derive(Clone)]
struct Room {
    sets: Vec<u8>,
    has: [bool; 256],
}

impl Room {
    /// Room for the empty set alone.
    fn none() -> Room {
        let mut room = Room {
            sets: Vec::new(),
            has: [false; 256],
        };
        room.add(0);
        room
    }

    fn add(&mut self, set: u8) {
        if !self.has[usize::from(set)] {
            self.has[usize::from(set)] = true;
            self.sets.push(set);
        }
    }

    /// The room in two parts neither of which lies above the other.
    fn beside(&self, other: &Room) -> Room {
        let mut room = Room::none();
        for &here in &self.sets {
            for &there in &other.sets {
                if here & there == 0 {
                    room.add(here | there);
                }
            }
        }
        room
    }

    /// One child alone may take the top of a part, if it fits there.
    fn add_singles(&mut self, children: &[usize], fits: impl Fn(usize) -> bool) {
        for (bit, &child) in children.iter().enumerate() {
            if fits(child) {
                self.add(1 << bit);
            }
        }
    }

    fn takes_all(&self, children: usize) -> bool {
        self.has[(1 << children) - 1]
    }
}
