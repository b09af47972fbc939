//! The reduced drawing of request 2.2: a node with one child is passed over and
//! gives way to that child, with all that lies below.

use crate::topology::Topology;

/// What a map has in place of an image for a node that is passed over.
pub const PASSED_OVER: u8 = 255;

/// A drawing after its nodes with one child are contracted.
#[derive(Clone, Default)]
pub struct Reduced {
    pub tree: Topology,
    /// The nodes that are kept, by their numbers in the drawing.
    pub kept: Vec<usize>,
}

impl Reduced {
    pub fn new(drawing: &Topology) -> Reduced {
        let mut reduced = Reduced::default();
        reduced.take(drawing, 0, None);
        reduced
    }

    /// Takes the branch under a node of the drawing below `parent`.
    fn take(&mut self, drawing: &Topology, node: usize, parent: Option<usize>) {
        if let &[only] = drawing.children(node) {
            return self.take(drawing, only, parent);
        }
        let here = self.tree.add(parent);
        self.kept.push(node);
        for &child in drawing.children(node) {
            self.take(drawing, child, Some(here));
        }
    }

    /// Whether one leaf is all that is left.
    pub fn is_lone_leaf(&self) -> bool {
        self.tree.is_leaf(0)
    }

    /// The list for the nodes as drawn, from the images of those that are kept.
    pub fn spread(&self, drawing: &Topology, images: &[u8]) -> Vec<u8> {
        let mut map = vec![PASSED_OVER; drawing.node_count()];
        for (&node, &image) in self.kept.iter().zip(images) {
            map[node] = image;
        }
        map
    }
}
