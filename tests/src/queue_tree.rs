//! The second implementation of the queue tree: each node has its queue and
//! its children. A state, well formed or not, is its queues; it is tested, and
//! only then made a tree.

use crate::topology::{self, Topology, TARGET_NODES};
pub use linduvar::{Step, Taken};

pub const MOST_PACKETS: usize = 256;
/// Each packet has at most 8 entries at inner nodes and one at a leaf.
pub const MOST_ENTRIES: usize = 9 * MOST_PACKETS;

#[derive(Clone, Copy, Debug, PartialEq, Eq)]
pub enum Refusal {
    Topology(topology::Refusal),
    NoSuchChild,
    EndsAboveLeaf,
    /// With the new count of such refusals.
    Full(u32),
    NoneHeld,
    Limit,
    IllFormed,
}

impl Refusal {
    /// The paper's number.
    pub fn number(self) -> u8 {
        match self {
            Refusal::Topology(refusal) => refusal as u8,
            Refusal::NoSuchChild => 13,
            Refusal::EndsAboveLeaf => 14,
            Refusal::Full(_) => 15,
            Refusal::NoneHeld => 16,
            Refusal::Limit => 17,
            Refusal::IllFormed => 18,
        }
    }
}

#[derive(Clone, Copy, Debug, PartialEq, Eq)]
pub enum Item {
    Child(u8),
    Packet(u32),
}

#[derive(Clone, Copy, Debug, PartialEq, Eq)]
pub struct Entry {
    pub rank: u64,
    pub item: Item,
}

/// A packet that departs, and what is taken on its way from the root on.
#[derive(Clone, Debug, PartialEq, Eq)]
pub struct Departure {
    pub packet: u32,
    pub way: Vec<Taken>,
}

#[derive(Clone)]
struct Node {
    number: u8,
    /// The head comes first.
    queue: Vec<Entry>,
    children: Vec<Node>,
}

impl Node {
    fn child(&mut self, number: u8) -> Option<&mut Node> {
        let index = usize::from(number).checked_sub(1)?;
        self.children.get_mut(index)
    }

    /// Enters before the first entry of greater rank.
    fn enter(&mut self, rank: u64, item: Item) {
        let at = self.queue.iter().position(|entry| entry.rank > rank);
        let at = at.unwrap_or(self.queue.len());
        self.queue.insert(at, Entry { rank, item });
    }

    fn push(&mut self, steps: &[Step], leaf_rank: u64, packet: u32) {
        match steps {
            [step, rest @ ..] => {
                self.enter(step.rank, Item::Child(step.child));
                let child = self.child(step.child).expect("a path that was tested");
                child.push(rest, leaf_rank, packet);
            }
            [] => self.enter(leaf_rank, Item::Packet(packet)),
        }
    }

    /// Adds what it takes, here and below, to the way.
    fn pop(&mut self, way: &mut Vec<Taken>) -> u32 {
        let Entry { rank, item } = self.queue.remove(0);
        let child = match item {
            Item::Child(child) => child,
            Item::Packet(_) => 0,
        };
        way.push(Taken {
            node: self.number,
            child,
            rank,
        });
        match item {
            Item::Child(child) => self.child(child).expect("a child of the node").pop(way),
            Item::Packet(packet) => packet,
        }
    }

    fn packets(&self) -> usize {
        if self.children.is_empty() {
            return self.queue.len();
        }
        self.children.iter().map(Node::packets).sum()
    }

    fn queues(&self, queues: &mut Vec<Vec<Entry>>) {
        queues.push(self.queue.clone());
        for child in &self.children {
            child.queues(queues);
        }
    }
}

/// A PIFO tree with its limit and its count of refusals.
#[derive(Clone)]
pub struct QueueTree {
    topology: Vec<u8>,
    limit: usize,
    refused: u32,
    root: Node,
}

impl QueueTree {
    pub fn open(bytes: &[u8], limit: usize) -> Result<QueueTree, Refusal> {
        let topology = Topology::read(bytes, TARGET_NODES).map_err(Refusal::Topology)?;
        if limit == 0 || limit > MOST_PACKETS {
            return Err(Refusal::Limit);
        }
        Ok(QueueTree {
            topology: bytes.to_vec(),
            limit,
            refused: 0,
            root: node(&topology, 0, &mut |_| Vec::new()),
        })
    }

    /// Answers how many packets are then held.
    pub fn push(&mut self, steps: &[Step], leaf_rank: u64, packet: u32) -> Result<usize, Refusal> {
        let mut node = &mut self.root;
        for step in steps {
            node = node.child(step.child).ok_or(Refusal::NoSuchChild)?;
        }
        if !node.children.is_empty() {
            return Err(Refusal::EndsAboveLeaf);
        }
        if self.is_full() {
            self.refused = self.refused.saturating_add(1);
            return Err(Refusal::Full(self.refused));
        }
        self.root.push(steps, leaf_rank, packet);
        Ok(self.root.queue.len())
    }

    pub fn pop(&mut self) -> Result<Departure, Refusal> {
        if self.root.queue.is_empty() {
            return Err(Refusal::NoneHeld);
        }
        let mut way = Vec::new();
        let packet = self.root.pop(&mut way);
        Ok(Departure { packet, way })
    }

    /// The root has an entry for each packet held.
    pub fn is_full(&self) -> bool {
        self.root.queue.len() == self.limit
    }

    pub fn topology(&self) -> &[u8] {
        &self.topology
    }

    pub fn limit(&self) -> usize {
        self.limit
    }

    /// The packets in the leaf queues.
    pub fn held(&self) -> usize {
        self.root.packets()
    }

    pub fn refusals(&self) -> u32 {
        self.refused
    }

    /// The tree in a state, if that is well formed.
    pub fn from_state(state: &State) -> Result<QueueTree, Refusal> {
        let topology = state.well_formed().ok_or(Refusal::IllFormed)?;
        Ok(QueueTree {
            topology: state.topology.clone(),
            limit: state.limit,
            refused: state.refused,
            root: node(&topology, 0, &mut |node| state.queues[node].clone()),
        })
    }

    pub fn state(&self) -> State {
        let mut queues = Vec::new();
        self.root.queues(&mut queues);
        State {
            topology: self.topology.clone(),
            limit: self.limit,
            refused: self.refused,
            queues,
        }
    }
}

/// The branch under a node, with a queue for each node.
fn node(topology: &Topology, number: usize, queue: &mut impl FnMut(usize) -> Vec<Entry>) -> Node {
    Node {
        number: number as u8,
        queue: queue(number),
        children: topology
            .children(number)
            .iter()
            .map(|&child| node(topology, child, queue))
            .collect(),
    }
}

/// A state, well formed or not: a queue for each node in order of their
/// numbers.
#[derive(Clone, Debug, PartialEq, Eq)]
pub struct State {
    pub topology: Vec<u8>,
    pub limit: usize,
    pub refused: u32,
    pub queues: Vec<Vec<Entry>>,
}

impl State {
    /// No tree: what a refused opening gives.
    pub const NONE: State = State {
        topology: Vec::new(),
        limit: 0,
        refused: 0,
        queues: Vec::new(),
    };

    /// The topology if the state is well formed, clause by clause.
    fn well_formed(&self) -> Option<Topology> {
        let topology = Topology::read(&self.topology, TARGET_NODES).ok()?;
        let nodes = 0..topology.node_count();
        let well_formed = (1..=MOST_PACKETS).contains(&self.limit)
            && self.packets_under(&topology, 0) <= self.limit
            && self.queues.iter().all(|queue| ranks_never_fall(queue))
            && nodes
                .clone()
                .all(|node| self.holds_its_own(&topology, node))
            && nodes
                .clone()
                .all(|node| self.names_packets(&topology, node));
        well_formed.then_some(topology)
    }

    /// The packets at the leaves of a branch.
    fn packets_under(&self, topology: &Topology, node: usize) -> usize {
        let children = topology.children(node);
        if children.is_empty() {
            return self.queues[node].len();
        }
        let below = children.iter();
        below
            .map(|&child| self.packets_under(topology, child))
            .sum()
    }

    /// Leaves hold packets only and inner nodes only their own child numbers.
    fn holds_its_own(&self, topology: &Topology, node: usize) -> bool {
        let children = topology.child_count(node);
        self.queues[node].iter().all(|entry| match entry.item {
            Item::Packet(_) => children == 0,
            Item::Child(child) => (1..=children).contains(&usize::from(child)),
        })
    }

    /// Each child occurs as often as there are packets under it.
    fn names_packets(&self, topology: &Topology, node: usize) -> bool {
        let mut children = topology.children(node).iter().zip(1..);
        children.all(|(&child, number)| {
            let occurs = |entry: &&Entry| entry.item == Item::Child(number);
            let times = self.queues[node].iter().filter(occurs).count();
            times == self.packets_under(topology, child)
        })
    }
}

fn ranks_never_fall(queue: &[Entry]) -> bool {
    queue.windows(2).all(|two| two[0].rank <= two[1].rank)
}

/// The loop that the benchmark times: in each round a pop and then a push of
/// the round's number, along the first path in even rounds and the second in
/// odd ones. Refusals are passed over.
pub fn rounds(tree: &mut QueueTree, paths: [(&[Step], u64); 2], rounds: u32) {
    for round in 0..rounds {
        let (steps, leaf_rank) = paths[round as usize % 2];
        _ = tree.pop();
        _ = tree.push(steps, leaf_rank, round);
    }
}
