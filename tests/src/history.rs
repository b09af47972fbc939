//! A scheduler that keeps nothing but what has happened, and looks each number
//! up in that: the rank last popped at a node, a child's last finish, the
//! packets that came and have not left. It is slow, and has the paper's words.

use crate::queue_tree::{Item, Step};
use crate::scheduler::{Rules, ARRIVAL, STRICT, WEIGHTED};
use crate::topology::Topology;
use crate::translator::Path;

const MOST_FINISH: u128 = 18_446_744_073_709_551_615;

/// An entry that came to the queue of a node.
struct Entered {
    node: usize,
    rank: u128,
    item: Item,
    left: bool,
}

/// Everything since the opening, in order.
pub struct History {
    drawing: Topology,
    rules: Rules,
    limit: usize,
    entered: Vec<Entered>,
    popped: Vec<(usize, u128)>,
    finished: Vec<(usize, u128)>,
    turned_away: u32,
}

impl History {
    /// The drawing, limit and rules have no fault.
    pub fn new(drawing: Topology, limit: usize, rules: &Rules) -> History {
        History {
            drawing,
            rules: *rules,
            limit,
            entered: Vec::new(),
            popped: Vec::new(),
            finished: Vec::new(),
            turned_away: 0,
        }
    }

    pub fn held(&self) -> usize {
        let there = self.entered.iter().filter(|entered| !entered.left);
        there
            .filter(|entered| matches!(entered.item, Item::Packet(_)))
            .count()
    }

    pub fn refusals(&self) -> u32 {
        self.turned_away
    }

    /// 0 where the node keeps none.
    pub fn virtual_time(&self, node: usize) -> u128 {
        match self.discipline(node) {
            WEIGHTED => last(&self.popped, node),
            _ => 0,
        }
    }

    pub fn finish(&self, node: usize) -> u128 {
        last(&self.finished, node)
    }

    /// A push by path: the packets then held, or the number of the refusal.
    pub fn push(&mut self, path: &Path, packet: u32) -> Result<u32, (u8, u32)> {
        let mut node = 0;
        let mut way = Vec::new();
        for &Step { child, rank } in &path.steps {
            let children = self.drawing.children(node);
            if child == 0 || usize::from(child) > children.len() {
                return Err((13, 0));
            }
            way.push((node, u128::from(rank), Item::Child(child)));
            node = children[usize::from(child) - 1];
        }
        if self.drawing.child_count(node) > 0 {
            return Err((14, 0));
        }
        way.push((node, u128::from(path.leaf_rank), Item::Packet(packet)));
        self.find_room()?;
        Ok(self.enter(way))
    }

    /// A push to a leaf.
    pub fn push_to_leaf(
        &mut self,
        leaf: usize,
        class: u8,
        length: u16,
        packet: u32,
    ) -> Result<u32, (u8, u32)> {
        if leaf >= self.drawing.node_count() || self.drawing.child_count(leaf) > 0 {
            return Err((25, 0));
        }
        self.find_room()?;
        let mut way = vec![(leaf, self.rank(leaf, leaf, class), Item::Packet(packet))];
        let mut finishes = Vec::new();
        let mut child = leaf;
        while let Some(node) = self.drawing.parent(child) {
            let rank = self.rank(node, child, class);
            let mut children = self.drawing.children(node).iter().zip(1..);
            let number = children.find(|(&other, _)| other == child);
            let number = number.expect("a child of its parent").1;
            way.push((node, rank, Item::Child(number)));
            if self.discipline(node) == WEIGHTED {
                let finish = rank + u128::from(length) * 256 / u128::from(self.rules[child].weight);
                finishes.push((child, finish));
            }
            child = node;
        }
        if finishes.iter().any(|&(_, finish)| finish > MOST_FINISH) {
            return Err((23, 0));
        }
        self.finished.extend(finishes);
        Ok(self.enter(way))
    }

    /// The packet that departs.
    pub fn pop(&mut self) -> Result<u32, (u8, u32)> {
        if self.held() == 0 {
            return Err((16, 0));
        }
        let mut node = 0;
        loop {
            let there = self.entered.iter_mut();
            let head = there
                .filter(|entered| entered.node == node && !entered.left)
                .min_by_key(|entered| entered.rank)
                .expect("an entry for each packet below");
            head.left = true;
            self.popped.push((node, head.rank));
            match head.item {
                Item::Child(number) => node = self.drawing.children(node)[usize::from(number) - 1],
                Item::Packet(packet) => return Ok(packet),
            }
        }
    }

    /// A node with one child is passed over, whatever its rule.
    fn discipline(&self, node: usize) -> u8 {
        match self.drawing.child_count(node) {
            1 => ARRIVAL,
            _ => self.rules[node].discipline,
        }
    }

    /// The rank at a node of a packet to its child, or of one that stays there.
    fn rank(&self, node: usize, child: usize, class: u8) -> u128 {
        match self.discipline(node) {
            ARRIVAL => 0,
            STRICT => u128::from(class),
            _ => self.virtual_time(node).max(self.finish(child)),
        }
    }

    /// 15 if there is none.
    fn find_room(&mut self) -> Result<(), (u8, u32)> {
        if self.held() < self.limit {
            return Ok(());
        }
        self.turned_away += 1;
        Err((15, self.turned_away))
    }

    fn enter(&mut self, way: Vec<(usize, u128, Item)>) -> u32 {
        for (node, rank, item) in way {
            self.entered.push(Entered {
                node,
                rank,
                item,
                left: false,
            });
        }
        self.held() as u32
    }
}

/// The last number for a node; 0 before there was one.
fn last(numbers: &[(usize, u128)], node: usize) -> u128 {
    let mut of_node = numbers.iter().rev().filter(|(other, _)| *other == node);
    of_node.next().map_or(0, |&(_, number)| number)
}
