//! Random pairs of a source and a target, and maps that may be damaged.

use crate::embedding::Pair;
use crate::generate::{self, SHAPES};
use crate::random::Random;
use crate::reduced::{Reduced, PASSED_OVER};
use crate::topology::{Topology, MOST_CHILDREN, MOST_STEPS_DOWN, TARGET_NODES};

/// Any size from `least` to `most`, which is the most frequent.
fn size(random: &mut Random, least: usize, most: usize) -> usize {
    let any = random.within(least..=most);
    random.pick(&[any, any, any, most])
}

/// A tree of any shape with 1 to `most` nodes.
pub fn tree(random: &mut Random, most: usize) -> Vec<u8> {
    let nodes = size(random, 1, most);
    let shape = random.pick(&SHAPES);
    let depth = random.pick(&[4, 6, MOST_STEPS_DOWN]);
    let children = random.pick(&[3, 5, MOST_CHILDREN]);
    generate::tree(random, shape, nodes, depth, children)
}

/// A source with 1 to `most` nodes: a tree of any shape, one with few nodes that
/// are passed over, or one with many, which may have one leaf below them.
pub fn drawing(random: &mut Random, most: usize) -> Vec<u8> {
    let smaller = match random.below(12) {
        0 => vec![0],
        1 => tree(random, most.div_ceil(4)),
        2 | 3 => tree(random, most.div_ceil(2)),
        4..8 => return bushy(&tree(random, (2 * most).div_ceil(3)), most),
        _ => return tree(random, most),
    };
    let nodes = size(random, smaller.len(), most);
    stretched(random, smaller, nodes)
}

/// A tree with a leaf put beside each only child, as long as there are not `most`
/// nodes.
fn bushy(bytes: &[u8], most: usize) -> Vec<u8> {
    let mut room = most - bytes.len();
    let mut bushy = Vec::new();
    for &children in bytes {
        if children == 1 && room > 0 {
            bushy.extend([2, 0]);
            room -= 1;
        } else {
            bushy.push(children);
        }
    }
    bushy
}

/// A tree with nodes of one child put in, up to `nodes` in all where there is
/// room for them: a byte 1 draws a node above the one that follows.
pub fn stretched(random: &mut Random, mut bytes: Vec<u8>, nodes: usize) -> Vec<u8> {
    for _ in 0..2 * nodes {
        let at = random.below(bytes.len());
        bytes.insert(at, 1);
        if Topology::read(&bytes, nodes).is_err() {
            bytes.remove(at);
        }
    }
    bytes
}

/// A source and a target, and a map if the pair was made from one. It meets
/// the rules, but need not be the least.
pub struct Drawn {
    pub source: Vec<u8>,
    pub target: Vec<u8>,
    pub map: Option<Vec<u8>>,
}

/// Two trees that are valid: half of the pairs have a map by their making, a
/// quarter narrowly miss one or not, and a quarter is unrelated.
pub fn any(random: &mut Random, source_nodes: usize, target_nodes: usize) -> Drawn {
    match random.below(4) {
        0 | 1 => embedded(random, source_nodes, target_nodes),
        2 => {
            let drawn = embedded(random, source_nodes - 1, target_nodes);
            let source = Topology::read(&drawn.source, TARGET_NODES).expect("a valid tree");
            let (source, _) = grown(random, &source, source.node_count() + 1);
            Drawn {
                source,
                target: drawn.target,
                map: None,
            }
        }
        _ => Drawn {
            source: drawing(random, source_nodes),
            target: tree(random, target_nodes),
            map: None,
        },
    }
}

/// A target grown around what is left of a source.
pub fn embedded(random: &mut Random, source_nodes: usize, target_nodes: usize) -> Drawn {
    let source = drawing(random, source_nodes);
    let topology = Topology::read(&source, TARGET_NODES).expect("a valid tree");
    let reduced = Reduced::new(&topology);
    let (target, images) = match reduced.is_lone_leaf() {
        true => around_a_leaf(random, target_nodes),
        false => {
            let nodes = size(random, reduced.tree.node_count(), target_nodes);
            grown(random, &reduced.tree, nodes)
        }
    };
    let map = Some(reduced.spread(&topology, &images));
    Drawn {
        source,
        target,
        map,
    }
}

/// Any target, and one of its leaves.
fn around_a_leaf(random: &mut Random, nodes: usize) -> (Vec<u8>, Vec<u8>) {
    let target = tree(random, nodes);
    let places = 0..target.len();
    let leaves: Vec<usize> = places.filter(|&place| target[place] == 0).collect();
    let image = random.pick(&leaves) as u8;
    (target, vec![image])
}

/// A tree around `source`, of `nodes` nodes where there is room for them, and
/// the map from one into the other.
///
/// New nodes come between a node and one or more of its children, or as new
/// children of inner nodes; in the end the children of every node are shuffled.
fn grown(random: &mut Random, source: &Topology, nodes: usize) -> (Vec<u8>, Vec<u8>) {
    let mut tree = Growing {
        children_of: (0..source.node_count())
            .map(|node| source.children(node).to_vec())
            .collect(),
    };
    let source_leaf: Vec<bool> = (0..source.node_count())
        .map(|node| source.is_leaf(node))
        .collect();
    for _ in 0..20 * nodes {
        let size = tree.children_of.len();
        if size >= nodes {
            break;
        }
        let parent = random.below(size);
        let children = tree.children_of[parent].clone();
        let depth = tree.depth(parent);
        if random.one_in(2) {
            let barred = source_leaf.get(parent) == Some(&true);
            if !barred && depth < MOST_STEPS_DOWN && children.len() < MOST_CHILDREN {
                tree.children_of[parent].push(size);
                tree.children_of.push(vec![]);
            }
        } else if !children.is_empty() {
            let at = random.below(children.len());
            let together = random.one_in(2);
            let (below, beside): (Vec<usize>, Vec<usize>) = children
                .iter()
                .partition(|&&child| child == children[at] || together && random.one_in(2));
            let height = below.iter().map(|&child| tree.height(child)).max();
            if depth + 2 + height.unwrap_or(0) <= MOST_STEPS_DOWN {
                tree.children_of[parent] = [beside, vec![size]].concat();
                tree.children_of.push(below);
            }
        }
    }
    for children in &mut tree.children_of {
        for last in (1..children.len()).rev() {
            children.swap(last, random.within(0..=last));
        }
    }
    let mut order = Vec::new();
    tree.preorder(0, &mut order);
    let bytes = order
        .iter()
        .map(|&node| tree.children_of[node].len() as u8)
        .collect();
    let mut map = vec![0; source.node_count()];
    for (number, &node) in order.iter().enumerate() {
        if node < map.len() {
            map[node] = number as u8;
        }
    }
    (bytes, map)
}

/// A tree whose nodes are numbered as they come, those of the source first.
struct Growing {
    children_of: Vec<Vec<usize>>,
}

impl Growing {
    fn depth(&self, node: usize) -> usize {
        let parent = self.children_of.iter().position(|of| of.contains(&node));
        parent.map_or(0, |parent| self.depth(parent) + 1)
    }

    fn height(&self, node: usize) -> usize {
        let below = self.children_of[node].iter();
        below
            .map(|&child| self.height(child) + 1)
            .max()
            .unwrap_or(0)
    }

    fn preorder(&self, node: usize, order: &mut Vec<usize>) {
        order.push(node);
        for &child in &self.children_of[node] {
            self.preorder(child, order);
        }
    }
}

/// Whether some target node that is no image has images below two of its
/// children: there the ranks of carried steps decide.
pub fn shares_a_node(target: &[u8], map: &[u8]) -> bool {
    let target = Topology::read(target, TARGET_NODES).expect("a valid tree");
    let has_image = |&&node: &&usize| {
        let mut images = map.iter().filter(|&&image| image != PASSED_OVER);
        images.any(|&image| target.is_above(node, usize::from(image)))
    };
    (0..target.node_count())
        .filter(|&node| !map.contains(&(node as u8)))
        .any(|node| target.children(node).iter().filter(has_image).count() > 1)
}

/// A list that may be a map, made from one that is.
pub fn damaged_map(right: &[u8], pair: &Pair, random: &mut Random) -> Vec<u8> {
    let mut map = right.to_vec();
    let Pair { source, target } = pair;
    let (nodes, places) = (source.node_count(), target.node_count());
    let (passed, kept): (Vec<usize>, Vec<usize>) =
        (0..nodes).partition(|&node| source.is_passed_over(node));
    let any_node = random.pick(&kept);
    let node = random.pick(&[any_node, any_node, any_node, nodes - 1]);
    let unused: Vec<u8> = (0..places as u8)
        .filter(|place| !map.contains(place))
        .collect();
    let inside: Vec<u8> = unused
        .iter()
        .copied()
        .filter(|&place| !target.is_leaf(usize::from(place)))
        .collect();
    let anything = random.below(256) as u8;
    match random.below(12) {
        0 => map.truncate(node),
        1 => {
            for _ in 0..random.within(1..=3) {
                map.push(random.below(places) as u8);
            }
        }
        2 => map[node] = random.pick(&[places as u8, places as u8 + 1, anything, PASSED_OVER]),
        3 => map[node] = map[random.pick(&kept)],
        4 if !unused.is_empty() => map[kept[0]] = random.pick(&unused),
        5 if !inside.is_empty() => {
            // A leaf sent inside: the first at or after the node.
            let leaf = (node..nodes).find(|&leaf| source.is_leaf(leaf));
            map[leaf.expect("the last node is a leaf")] = random.pick(&inside);
        }
        6 if !unused.is_empty() => {
            let any = random.pick(&unused);
            map[node] = random.pick(&[any, any, any, unused[unused.len() - 1]]);
        }
        7 if usize::from(map[node]) < places => {
            // An inner node is moved up, over its siblings if there are any.
            let image = usize::from(map[node]);
            let over: Vec<u8> = unused
                .iter()
                .copied()
                .filter(|&place| target.is_above(usize::from(place), image))
                .collect();
            if !source.is_leaf(node) && !over.is_empty() {
                map[node] = random.pick(&over);
            }
        }
        8 if !passed.is_empty() => {
            // A node that is passed over gets a number as if it were kept.
            let below = map[random.pick(&kept)];
            let places = places as u8;
            map[random.pick(&passed)] = random.pick(&[0, below, places - 1, places, 254, anything]);
        }
        9 => map.swap(random.below(nodes), random.below(nodes)),
        _ => map.swap(random.pick(&kept), random.pick(&kept)),
    }
    map
}
