//! The second implementation of disciplines: Figure 1 of document 002 at each
//! weighted node of a drawing, over the queue tree. A tree by itself is its own
//! drawing; a chip's tree stands behind a map and goes by the source's. A
//! discipline at a node that is passed over gives rank 0 and keeps nothing.

use crate::embedding::read_pair;
use crate::queue_tree::{self, Departure, QueueTree, State, Step};
use crate::topology::{Topology, SOURCE_NODES, TARGET_NODES};
use crate::translator::{way_down, Path, Translator};
pub use linduvar::{Disciplines, Rule, Rules};
use std::collections::BTreeMap;

pub const ARRIVAL: u8 = 0;
pub const STRICT: u8 = 1;
pub const WEIGHTED: u8 = 2;

#[derive(Clone, Copy, Debug, PartialEq, Eq)]
pub enum Refusal {
    /// A fault of a topology or a map, or no map at all: 1 to 12, or 26.
    Drawing(u8),
    Queues(queue_tree::Refusal),
    LateFinish,
    Rules,
    NoSuchLeaf,
}

impl Refusal {
    /// The paper's number.
    pub fn number(self) -> u8 {
        match self {
            Refusal::Drawing(number) => number,
            Refusal::Queues(refusal) => refusal.number(),
            Refusal::LateFinish => 23,
            Refusal::Rules => 24,
            Refusal::NoSuchLeaf => 25,
        }
    }
}

impl From<queue_tree::Refusal> for Refusal {
    fn from(refusal: queue_tree::Refusal) -> Refusal {
        Refusal::Queues(refusal)
    }
}

/// Disciplines of which nothing was popped and nothing finished. Only weighted
/// nodes that are not passed over keep anything, and all other numbers stay as
/// they came.
pub fn fresh(rules: &Rules) -> Disciplines {
    Disciplines {
        rules: *rules,
        virtual_time: [0; TARGET_NODES],
        finish: [0; TARGET_NODES],
    }
}

/// A child of a node, by its number there.
type Flow = (usize, u8);

/// A drawing with its rules and the variables of Figure 1.
#[derive(Clone)]
pub struct Scheduler {
    drawing: Topology,
    given: Disciplines,
    /// Each weighted node that is kept has one.
    virtual_time: BTreeMap<usize, u64>,
    /// Each child of such a node has one.
    last_finish: BTreeMap<Flow, u64>,
}

impl Scheduler {
    /// None where a rule cannot be followed.
    pub fn new(drawing: Topology, given: &Disciplines) -> Option<Scheduler> {
        let mut scheduler = Scheduler {
            drawing,
            given: *given,
            virtual_time: BTreeMap::new(),
            last_finish: BTreeMap::new(),
        };
        for node in 0..scheduler.drawing.node_count() {
            if !scheduler.can_follow(node) {
                return None;
            }
            if scheduler.discipline(node) == WEIGHTED && !scheduler.drawing.is_passed_over(node) {
                scheduler.take_up(node);
            }
        }
        Some(scheduler)
    }

    /// Whether a node's rule can be followed, be it passed over or not: a
    /// weighted node is no leaf, and its children have weights.
    fn can_follow(&self, node: usize) -> bool {
        let children = self.drawing.children(node);
        match self.discipline(node) {
            ARRIVAL | STRICT => true,
            WEIGHTED => {
                let has_weight = |&child: &usize| self.given.rules[child].weight > 0;
                !children.is_empty() && children.iter().all(has_weight)
            }
            _ => false,
        }
    }

    /// Takes up what a weighted node keeps.
    fn take_up(&mut self, node: usize) {
        self.virtual_time
            .insert(node, self.given.virtual_time[node]);
        for (&child, number) in self.drawing.children(node).iter().zip(1..) {
            self.last_finish
                .insert((node, number), self.given.finish[child]);
        }
    }

    fn discipline(&self, node: usize) -> u8 {
        self.given.rules[node].discipline
    }

    fn child(&self, (node, number): Flow) -> usize {
        self.drawing.children(node)[usize::from(number) - 1]
    }

    fn is_leaf(&self, node: usize) -> bool {
        node < self.drawing.node_count() && self.drawing.is_leaf(node)
    }

    /// The disciplines as they are now.
    pub fn disciplines(&self) -> Disciplines {
        let mut now = self.given;
        for (&node, &time) in &self.virtual_time {
            now.virtual_time[node] = time;
        }
        for (&flow, &finish) in &self.last_finish {
            now.finish[self.child(flow)] = finish;
        }
        now
    }

    /// Figure 1's start of a packet to a child of a node that keeps a virtual
    /// time.
    fn start(&self, flow: Flow) -> u64 {
        self.virtual_time[&flow.0].max(self.last_finish[&flow])
    }

    /// Figure 1's finish; None if it is too large.
    fn finish(&self, flow: Flow, length: u16) -> Option<u64> {
        let weight = self.given.rules[self.child(flow)].weight;
        let service = u64::from(length) * 256 / u64::from(weight);
        self.start(flow).checked_add(service)
    }

    /// The children that a packet goes by on its way from the root to a leaf.
    fn flows(&self, leaf: usize) -> Vec<Flow> {
        let mut node = 0;
        let mut flows = Vec::new();
        for number in way_down(&self.drawing, 0, leaf) {
            flows.push((node, number));
            node = self.child((node, number));
        }
        flows
    }

    /// The path of a packet to a leaf.
    fn path(&self, leaf: usize, class: u8) -> Path {
        let step = |flow: Flow| Step {
            child: flow.1,
            rank: match self.virtual_time.contains_key(&flow.0) {
                true => self.start(flow),
                false => self.plain_rank(flow.0, class),
            },
        };
        Path {
            steps: self.flows(leaf).into_iter().map(step).collect(),
            leaf_rank: self.plain_rank(leaf, class),
        }
    }

    /// The rank at a node that keeps no virtual time.
    fn plain_rank(&self, node: usize, class: u8) -> u64 {
        match self.discipline(node) {
            STRICT if !self.drawing.is_passed_over(node) => u64::from(class),
            _ => 0,
        }
    }

    /// The finishes that a packet to a leaf leaves behind; None if one of them
    /// is too large.
    fn finishes(&self, leaf: usize, length: u16) -> Option<Vec<(Flow, u64)>> {
        let flows = self.flows(leaf).into_iter();
        flows
            .filter(|flow| self.last_finish.contains_key(flow))
            .map(|flow| Some((flow, self.finish(flow, length)?)))
            .collect()
    }

    /// A pop took an entry of that rank at the node.
    fn popped(&mut self, node: usize, rank: u64) {
        if let Some(time) = self.virtual_time.get_mut(&node) {
            *time = rank;
        }
    }
}

/// A queue tree with disciplines.
#[derive(Clone)]
pub struct Tree {
    queues: QueueTree,
    scheduler: Scheduler,
    /// Where the queues are a chip's.
    translator: Option<Translator>,
}

impl Tree {
    /// Opens a tree by itself.
    pub fn open(bytes: &[u8], limit: usize, rules: &Rules) -> Result<Tree, Refusal> {
        let queues = QueueTree::open(bytes, limit)?;
        Tree::opened(queues, read(bytes, TARGET_NODES)?, rules)
    }

    /// A tree of empty queues whose disciplines go by a drawing.
    fn opened(queues: QueueTree, drawing: Topology, rules: &Rules) -> Result<Tree, Refusal> {
        let fresh = fresh(rules);
        let scheduler = Scheduler::new(drawing, &fresh).ok_or(Refusal::Rules)?;
        Ok(Tree {
            queues,
            scheduler,
            translator: None,
        })
    }

    /// The tree in a state, if that is well formed.
    pub fn from_state(state: &State, disciplines: &Disciplines) -> Result<Tree, Refusal> {
        // If the topology cannot be read, the queues are not well formed.
        let queues = QueueTree::from_state(state)?;
        let drawing = read(&state.topology, TARGET_NODES)?;
        Ok(Tree {
            queues,
            scheduler: well_kept(drawing, disciplines)?,
            translator: None,
        })
    }

    /// Opens a chip's tree for a drawing, behind no map yet.
    pub fn open_chip(
        source: &[u8],
        target: &[u8],
        limit: usize,
        rules: &Rules,
    ) -> Result<Tree, Refusal> {
        let drawing = read(source, SOURCE_NODES)?;
        Tree::opened(QueueTree::open(target, limit)?, drawing, rules)
    }

    /// The chip's tree in a state behind a map.
    pub fn on_chip(
        source: &[u8],
        map: &[u8],
        state: &State,
        disciplines: &Disciplines,
    ) -> Result<Tree, Refusal> {
        let drawing = read(source, SOURCE_NODES)?;
        let queues = QueueTree::from_state(state)?;
        let scheduler = well_kept(drawing, disciplines)?;
        let translator = Translator::new(source, &state.topology, map).map_err(Refusal::Drawing)?;
        Ok(Tree {
            queues,
            scheduler,
            translator: Some(translator),
        })
    }

    /// Pushes a packet along a path of the drawing, and answers how many are
    /// then held.
    pub fn push(&mut self, path: &Path, packet: u32) -> Result<usize, Refusal> {
        let carried = match &self.translator {
            Some(translator) => &translator.carry(path)?,
            None => path,
        };
        let held = self
            .queues
            .push(&carried.steps, carried.leaf_rank, packet)?;
        Ok(held)
    }

    /// Pushes a packet to a leaf of the drawing, with the ranks that the
    /// disciplines give it.
    pub fn push_to_leaf(
        &mut self,
        leaf: usize,
        class: u8,
        length: u16,
        packet: u32,
    ) -> Result<usize, Refusal> {
        if !self.scheduler.is_leaf(leaf) {
            return Err(Refusal::NoSuchLeaf);
        }
        let path = self.scheduler.path(leaf, class);
        let finishes = self.scheduler.finishes(leaf, length);
        if finishes.is_none() && !self.queues.is_full() {
            return Err(Refusal::LateFinish);
        }
        let held = self.push(&path, packet)?;
        let last_finish = &mut self.scheduler.last_finish;
        last_finish.extend(finishes.into_iter().flatten());
        Ok(held)
    }

    pub fn pop(&mut self) -> Result<u32, Refusal> {
        let Departure { packet, way } = self.queues.pop()?;
        for taken in way {
            if let Some(node) = self.drawn(usize::from(taken.node)) {
                self.scheduler.popped(node, taken.rank);
            }
        }
        Ok(packet)
    }

    /// The node of the drawing that has its queue there.
    fn drawn(&self, place: usize) -> Option<usize> {
        match &self.translator {
            Some(translator) => translator.drawn(place),
            None => Some(place),
        }
    }

    pub fn held(&self) -> usize {
        self.queues.held()
    }

    pub fn refusals(&self) -> u32 {
        self.queues.refusals()
    }

    pub fn limit(&self) -> usize {
        self.queues.limit()
    }

    pub fn state(&self) -> State {
        self.queues.state()
    }

    pub fn disciplines(&self) -> Disciplines {
        self.scheduler.disciplines()
    }
}

/// Packets held and refusals counted of a chip's tree in a state.
pub fn chip_counts(
    source: &[u8],
    state: &State,
    disciplines: &Disciplines,
) -> Result<(usize, u32), Refusal> {
    let drawing = read(source, SOURCE_NODES)?;
    let queues = QueueTree::from_state(state)?;
    well_kept(drawing, disciplines)?;
    Ok((queues.held(), queues.refusals()))
}

/// Both trees opened together, and the least map between them.
pub struct Pair {
    pub source: Tree,
    pub chip: Tree,
    pub map: Vec<u8>,
}

impl Pair {
    pub fn open(
        source: &[u8],
        target: &[u8],
        limit: usize,
        rules: &Rules,
    ) -> Result<Pair, Refusal> {
        let pair = read_pair(source, target).map_err(Refusal::Drawing)?;
        let map = pair
            .least_map()
            .map_err(|refusal| Refusal::Drawing(refusal as u8))?;
        let drawn = Tree::open(source, limit, rules)?;
        let translator = Translator::new(source, target, &map).map_err(Refusal::Drawing)?;
        let chip = Tree {
            queues: QueueTree::open(target, limit)?,
            scheduler: drawn.scheduler.clone(),
            translator: Some(translator),
        };
        Ok(Pair {
            source: drawn,
            chip,
            map,
        })
    }
}

fn read(bytes: &[u8], nodes: usize) -> Result<Topology, Refusal> {
    Topology::read(bytes, nodes).map_err(|refusal| Refusal::Drawing(refusal as u8))
}

/// The disciplines in a state: rules that cannot be followed make it ill
/// formed.
fn well_kept(drawing: Topology, disciplines: &Disciplines) -> Result<Scheduler, Refusal> {
    let scheduler = Scheduler::new(drawing, disciplines);
    scheduler.ok_or(Refusal::Queues(queue_tree::Refusal::IllFormed))
}

/// The loop that the benchmark times: in each round a pop and then a push of
/// the round's number to a leaf. Refusals are passed over.
pub fn rounds(tree: &mut Tree, leaf: usize, class: u8, length: u16, rounds: u32) {
    for round in 0..rounds {
        _ = tree.pop();
        _ = tree.push_to_leaf(leaf, class, length, round);
    }
}

/// The same along a path.
pub fn path_rounds(tree: &mut Tree, path: &Path, rounds: u32) {
    for round in 0..rounds {
        _ = tree.pop();
        _ = tree.push(path, round);
    }
}
