//! The second implementation: it builds the tree and answers from it.

pub const SOURCE_NODES: usize = 32;
pub const TARGET_NODES: usize = 64;
pub const MOST_CHILDREN: usize = 8;
pub const MOST_STEPS_DOWN: usize = 8;

/// The refusals, with the paper's numbers.
#[derive(Clone, Copy, Debug, PartialEq, Eq)]
#[repr(u8)]
pub enum Refusal {
    EndsEarly = 1,
    BytesFollow = 2,
    TooManyNodes = 3,
    TooManyChildren = 4,
    TooDeep = 5,
    NoSuchNode = 19,
}

#[derive(Clone)]
struct Node {
    parent: Option<usize>,
    children: Vec<usize>,
}

/// A tree; its nodes stand in preorder, so a node's index is its number.
#[derive(Clone, Default)]
pub struct Topology {
    nodes: Vec<Node>,
}

impl Topology {
    pub fn read(bytes: &[u8], limit: usize) -> Result<Topology, Refusal> {
        let mut topology = Topology::default();
        topology.read_branch(bytes, limit, None, 0)?;
        if topology.nodes.len() < bytes.len() {
            return Err(Refusal::BytesFollow);
        }
        Ok(topology)
    }

    /// Reads the next node, `depth` steps below the root, and all nodes below
    /// it.
    fn read_branch(
        &mut self,
        bytes: &[u8],
        limit: usize,
        parent: Option<usize>,
        depth: usize,
    ) -> Result<(), Refusal> {
        let Some(&count) = bytes.get(self.nodes.len()) else {
            return Err(Refusal::EndsEarly);
        };
        if self.nodes.len() >= limit {
            return Err(Refusal::TooManyNodes);
        }
        if usize::from(count) > MOST_CHILDREN {
            return Err(Refusal::TooManyChildren);
        }
        if depth > MOST_STEPS_DOWN {
            return Err(Refusal::TooDeep);
        }
        let node = self.add(parent);
        for _ in 0..count {
            self.read_branch(bytes, limit, Some(node), depth + 1)?;
        }
        Ok(())
    }

    /// Adds a node behind all others, the last child of its parent, and
    /// answers its number.
    pub fn add(&mut self, parent: Option<usize>) -> usize {
        let node = self.nodes.len();
        if let Some(parent) = parent {
            self.nodes[parent].children.push(node);
        }
        let children = Vec::new();
        self.nodes.push(Node { parent, children });
        node
    }

    pub fn node_count(&self) -> usize {
        self.nodes.len()
    }

    pub fn child_count(&self, node: usize) -> usize {
        self.nodes[node].children.len()
    }

    pub fn is_leaf(&self, node: usize) -> bool {
        self.child_count(node) == 0
    }

    /// Whether a node of a drawing is passed over: an inner node with one child.
    pub fn is_passed_over(&self, node: usize) -> bool {
        self.child_count(node) == 1
    }

    pub fn children(&self, node: usize) -> &[usize] {
        &self.nodes[node].children
    }

    pub fn parent(&self, node: usize) -> Option<usize> {
        self.nodes[node].parent
    }

    /// How many steps `node` lies below the root.
    pub fn depth(&self, node: usize) -> usize {
        match self.nodes[node].parent {
            Some(parent) => self.depth(parent) + 1,
            None => 0,
        }
    }

    /// One past the last node of the branch: that is the last child of the
    /// last child, and so on down.
    pub fn branch_end(&self, node: usize) -> usize {
        match self.nodes[node].children.last() {
            Some(&last) => self.branch_end(last),
            None => node + 1,
        }
    }

    /// Whether `a` is `b` or an ancestor of it: looks up from `b`.
    pub fn is_above(&self, a: usize, b: usize) -> bool {
        a == b || self.nodes[b].parent.is_some_and(|up| self.is_above(a, up))
    }

    /// The tree as bytes.
    pub fn bytes(&self) -> Vec<u8> {
        let counts = self.nodes.iter().map(|node| node.children.len() as u8);
        counts.collect()
    }

    /// Writes the branch under `node` as a topology of its own.
    fn write_branch(&self, node: usize, out: &mut Vec<u8>) {
        let children = &self.nodes[node].children;
        out.push(children.len() as u8);
        for &child in children {
            self.write_branch(child, out);
        }
    }
}

/// The branch under `node` of a topology with the target's limits, written out
/// anew from the tree.
pub fn branch(bytes: &[u8], node: usize) -> Result<Vec<u8>, Refusal> {
    let topology = Topology::read(bytes, TARGET_NODES)?;
    if node >= topology.node_count() {
        return Err(Refusal::NoSuchNode);
    }
    let mut branch = Vec::new();
    topology.write_branch(node, &mut branch);
    Ok(branch)
}
