//! Random queue trees, paths and states, right and damaged.

use crate::generate::{self, SHAPES};
use crate::pairs;
use crate::plain;
use crate::queue_tree::{Entry, Item, QueueTree, State, Step, MOST_ENTRIES};
use crate::random::Random;
use crate::topology::{Topology, MOST_CHILDREN, MOST_STEPS_DOWN, TARGET_NODES};

/// The limits of the trees.
pub const LIMITS: [usize; 6] = [1, 2, 3, 10, 255, 256];

/// A tree that can be opened, of some shape that is worth a look.
pub fn any_topology(random: &mut Random) -> Vec<u8> {
    match random.below(10) {
        0 => vec![0],
        1 => vec![1, 1, 1, 1, 1, 1, 1, 1, 0],
        2 => [vec![8], vec![0; 8]].concat(),
        3 => vec![2, 2, 0, 0, 2, 0, 0],
        4 => [[2, 0].repeat(8), vec![0]].concat(),
        5 => pairs::drawing(random, TARGET_NODES),
        6 => {
            let shape = random.pick(&SHAPES);
            let nodes = random.within(2..=12);
            generate::tree(random, shape, nodes, MOST_STEPS_DOWN, MOST_CHILDREN)
        }
        _ => generate::valid(random),
    }
}

/// A tree with some packets in it, pushed and popped on this side alone.
pub fn any_tree(random: &mut Random, habits: &Habits) -> QueueTree {
    let (topology, limit, packets) = if random.one_in(10) {
        // As many entries as there can be, or nearly.
        (
            vec![1, 1, 1, 1, 1, 1, 1, 1, 0],
            256,
            random.pick(&[255, 256]),
        )
    } else {
        let limit = random.pick(&LIMITS);
        let any = random.within(0..=limit.min(12));
        let packets = random.pick(&[any, any, any, limit.min(40), limit]);
        (any_topology(random), limit, packets)
    };
    let reading = Topology::read(&topology, TARGET_NODES).expect("a valid tree");
    let mut tree = QueueTree::open(&topology, limit).expect("a valid tree");
    while tree.held() < packets {
        let steps = right_path(&reading, habits, random);
        let (rank, packet) = (habits.rank(random), habits.packet(random));
        tree.push(&steps, rank, packet).expect("a right path");
        if random.one_in(8) {
            tree.pop().expect("a packet was pushed");
        }
    }
    tree
}

/// Whether a list of calls is filling its tree or emptying it; it turns where
/// the tree is empty, and sooner or later where it is full.
#[derive(Clone, Copy, PartialEq)]
pub enum Course {
    Filling,
    Emptying,
}

impl Course {
    /// Whether the next call is a push.
    pub fn pushes(&mut self, held: usize, limit: usize, random: &mut Random) -> bool {
        if held == 0 {
            *self = Course::Filling;
        } else if held == limit && random.one_in(8) {
            *self = Course::Emptying;
        }
        !random.one_in(if *self == Course::Filling { 6 } else { 2 })
    }
}

/// What ranks and packets a list of calls makes use of.
pub struct Habits {
    ranks: Ranks,
}

#[derive(Clone, Copy)]
enum Ranks {
    /// So few that ties are common.
    Below(u64),
    /// Ranks of 32 bits, many of them at far ends.
    Narrow,
    /// The five around 2^32.
    AroundNarrow,
    /// Ranks of 64 bits with few words of 32 bits, so that many agree in their
    /// low words, and many have another order by these.
    FewWords,
    /// Ranks of 64 bits, many of them at far ends.
    Wide,
}

impl Habits {
    pub fn any(random: &mut Random) -> Habits {
        let wide = random.pick(&[Ranks::AroundNarrow, Ranks::FewWords, Ranks::Wide]);
        match random.one_in(2) {
            true => Habits { ranks: wide },
            false => Habits::narrow(random),
        }
    }

    /// With ranks of 32 bits alone.
    pub fn narrow(random: &mut Random) -> Habits {
        let few = random.pick(&[1, 2, 3, 3, 10, 1_000_000]);
        let ranks = random.pick(&[Ranks::Below(few), Ranks::Below(few), Ranks::Narrow]);
        Habits { ranks }
    }

    pub fn rank(&self, random: &mut Random) -> u64 {
        const NARROW: u64 = u32::MAX as u64;
        let any = random.number();
        let mut word = || random.pick(&[0, 1, 2, NARROW]);
        match self.ranks {
            Ranks::Below(few) => any % few,
            Ranks::Narrow => {
                random.pick(&[0, 1, 65_535, 65_536, 1 << 31, NARROW - 1, NARROW, any >> 32])
            }
            Ranks::AroundNarrow => NARROW - 1 + any % 5,
            Ranks::FewWords => word() << 32 | word(),
            Ranks::Wide => random.pick(&[0, NARROW, 1 << 32, 1 << 63, u64::MAX - 1, u64::MAX, any]),
        }
    }

    pub fn packet(&self, random: &mut Random) -> u32 {
        let (few, any) = (random.below(3) as u32, random.number() as u32);
        random.pick(&[few, any, any, any, u32::MAX])
    }
}

/// A path from the root to some leaf.
fn right_path(topology: &Topology, habits: &Habits, random: &mut Random) -> Vec<Step> {
    let mut steps = Vec::new();
    let mut node = 0;
    while topology.child_count(node) > 0 {
        let child = random.within(1..=topology.child_count(node));
        let rank = habits.rank(random);
        steps.push(Step {
            child: child as u8,
            rank,
        });
        node = topology.children(node)[child - 1];
    }
    steps
}

/// The kinds of paths, and the answer that each gets where it can be made and
/// nothing comes before it.
pub const PATHS: [(&str, u8); 8] = [
    ("right path", 0),
    ("right path and noise behind it", 0),
    ("child 0", 13),
    ("missing child", 13),
    ("step at a leaf", 13),
    ("ninth step", 13),
    ("end above a leaf", 14),
    ("missing child, then an end above a leaf", 13),
];

/// A path of any kind, mostly a right one, with what `PATHS` has on that kind.
pub fn any_path(
    topology: &[u8],
    habits: &Habits,
    random: &mut Random,
) -> (linduvar::Path, &'static str, u8) {
    let topology = Topology::read(topology, TARGET_NODES).expect("a valid tree");
    let (kind, answer) = match random.one_in(4) {
        true => random.pick(&PATHS),
        false => PATHS[0],
    };
    let mut steps = right_path(&topology, habits, random);
    let right = steps.len();
    damage_path(&mut steps, kind, &topology, random);
    let mut path = linduvar::Path::new(&steps, habits.rank(random));
    if kind == "right path and noise behind it" {
        noise_behind(&mut path, habits, random);
    }
    if kind == "ninth step" {
        // However many more are counted, nine are read. In fewer bits some of
        // these counts would be that of the right path.
        path.count = random.pick(&[9, 10, 12, right + 256, right + (1 << 32), usize::MAX]);
    }
    (path, kind, answer)
}

/// Fills the places past the last step.
pub fn noise_behind(path: &mut linduvar::Path, habits: &Habits, random: &mut Random) {
    for place in path.steps.iter_mut().skip(path.count) {
        *place = Step {
            child: random.within(1..=9) as u8,
            rank: habits.rank(random),
        };
    }
}

/// Makes a path of that kind from a right one.
fn damage_path(steps: &mut Vec<Step>, kind: &str, topology: &Topology, random: &mut Random) {
    let length = steps.len();
    let at = random.below(length.max(1));
    let mut node = 0;
    for step in steps.iter().take(at) {
        node = topology.children(node)[usize::from(step.child) - 1];
    }
    let children = topology.child_count(node) as u8;
    let more = |child: u8| Step { child, rank: 1 };
    match kind {
        "child 0" if length > 0 => steps[at].child = 0,
        "missing child" if length > 0 => {
            steps[at].child = random.pick(&[children + 1, 9, 128, 255]);
        }
        "step at a leaf" if length < MOST_STEPS_DOWN => {
            steps.push(more(random.pick(&[0, 1, 1, 2])));
        }
        "ninth step" => {
            let length = random.within(9..=12);
            steps.resize(length, more(1));
        }
        "end above a leaf" => steps.truncate(at),
        "missing child, then an end above a leaf" if length > 1 => {
            steps.pop();
            let at = at.min(length - 2);
            steps[at].child = random.pick(&[0, 9]);
        }
        _ => {}
    }
}

/// Ways to write a state that leave its queues as they are.
pub const DRESSES: [&str; 7] = [
    "nothing but its numbers",
    "other tags of packets",
    "noise beside children and packets",
    "noise behind the entries",
    "noise behind the lengths",
    "noise behind the topology",
    "limit as many as held",
];

/// A state, written in that way.
pub fn dressed(state: &State, kind: &str, random: &mut Random) -> linduvar::State {
    let mut plain = plain::state(state);
    let (nodes, used) = (plain.frame.nodes, plain::used(&plain));
    for entry in &mut plain.entries[..used] {
        match (kind, entry.tag) {
            ("other tags of packets", 1) => entry.tag = random.within(1..=255) as u8,
            ("noise beside children and packets", 0) => entry.packet = random.number() as u32,
            ("noise beside children and packets", _) => entry.child = random.below(256) as u8,
            _ => {}
        }
    }
    match kind {
        "noise behind the entries" => plain.entries[used..].fill_with(|| linduvar::Entry {
            rank: random.number(),
            tag: random.below(256) as u8,
            child: random.below(256) as u8,
            packet: random.number() as u32,
        }),
        "noise behind the lengths" => {
            plain.lengths[nodes..].fill_with(|| random.number() as u16);
        }
        "noise behind the topology" => {
            plain.frame.topology[nodes..].fill_with(|| random.below(256) as u8);
        }
        _ => {}
    }
    plain
}

/// An entry of the highest rank, which may stand behind all others.
fn last(item: Item) -> Entry {
    Entry {
        rank: u64::MAX,
        item,
    }
}

/// Ways to break a clause of well-formedness.
pub const DAMAGES: [&str; 25] = [
    "topology byte",
    "number of nodes",
    "limit 0",
    "limit above 256",
    "limit below the packets held",
    "packets far above the limit",
    "more entries than there can be",
    "length too long",
    "length too short",
    "one length more, another less",
    "entries of two queues exchanged",
    "falling rank at an inner node",
    "falling rank at a leaf",
    "falling rank, its low word the same",
    "packet for a child at an inner node",
    "packet more at an inner node",
    "child for a packet at a leaf",
    "child more at a leaf",
    "child number 0",
    "child number too large",
    "another child",
    "child more",
    "child 256 times more",
    "child less",
    "packet more or less at a leaf",
];

/// Breaks one clause of a well formed state; None where that state gives no
/// occasion for it.
pub fn damage(state: &mut linduvar::State, kind: &str, random: &mut Random) -> Option<()> {
    let (nodes, used) = (state.frame.nodes, plain::used(state));
    let topology = state.frame.topology;
    let lengths = state.lengths;
    let children = |node: usize| usize::from(topology[node]);
    let length = |node: usize| usize::from(lengths[node]);
    let owners: Vec<usize> = (0..nodes)
        .flat_map(|node| vec![node; length(node)])
        .collect();
    let owner = |at: usize| owners[at];
    let is_leaf = |node: usize| topology[node] == 0;

    // A place to break it: some entry, some node.
    let at_leaf: Vec<usize> = (0..used).filter(|&at| is_leaf(owner(at))).collect();
    let at_inner: Vec<usize> = (0..used).filter(|&at| !is_leaf(owner(at))).collect();
    let leaves: Vec<usize> = (0..nodes).filter(|&node| is_leaf(node)).collect();
    let inner: Vec<usize> = (0..nodes).filter(|&node| !is_leaf(node)).collect();
    let mut some = |places: &[usize]| (!places.is_empty()).then(|| random.pick(places));
    let (leaf_entry, inner_entry) = (some(&at_leaf), some(&at_inner));
    let (leaf, inner_node) = (some(&leaves)?, some(&inner));
    let any_entry = some(&(0..used).collect::<Vec<_>>());

    match kind {
        "topology byte" => {
            let at = random.below(nodes);
            let byte = topology[at];
            state.frame.topology[at] =
                random.pick(&[0, 1, byte + 1, byte.wrapping_sub(1), 8, 9, 255]);
        }
        "number of nodes" => {
            let far = random.pick(&[256 + nodes, (1 << 32) + nodes, usize::MAX]);
            state.frame.nodes = random.pick(&[0, nodes - 1, nodes + 1, 65, 255, far]);
        }
        "limit 0" => state.frame.limit = 0,
        "limit above 256" => {
            let limit = state.frame.limit;
            let far = random.pick(&[65_536 + limit, (1 << 32) + limit, usize::MAX]);
            state.frame.limit = random.pick(&[257, 258, 511, 512, far]);
        }
        "limit below the packets held" => {
            if at_leaf.len() < 2 {
                return None;
            }
            state.frame.limit = at_leaf.len() - 1;
        }
        "packets far above the limit" => {
            // One leaf that has them all.
            let limit = random.pick(&[1, 255, 256]);
            let packets = random.pick(&[limit + 1, 257, limit + 256, 512, MOST_ENTRIES]);
            (state.frame.topology[0], state.frame.nodes) = (0, 1);
            (state.frame.limit, state.lengths[0]) = (limit, packets as u16);
            state.entries[..packets].fill(plain::entry(&last(Item::Packet(1))));
        }
        "more entries than there can be" => {
            let (one, other) = (random.below(nodes), random.below(nodes));
            let too_many = (MOST_ENTRIES + 1 - used + length(one)) as u16;
            if one != other && random.one_in(2) {
                // In 16 bits the sum would be as before.
                state.lengths[one] += 1 << 15;
                state.lengths[other] += 1 << 15;
            } else {
                state.lengths[one] = random.pick(&[too_many, 1 << 15, u16::MAX]);
            }
        }
        "length too long" => {
            let more = random.pick(&[1, 1, 2, 256]);
            if used + more > MOST_ENTRIES {
                return None;
            }
            state.lengths[random.below(nodes)] += more as u16;
        }
        "length too short" => {
            let node = owner(any_entry?);
            state.lengths[node] -= random.within(1..=length(node)) as u16;
        }
        "one length more, another less" => {
            state.lengths[owner(any_entry?)] -= 1;
            state.lengths[random.below(nodes)] += 1;
        }
        "entries of two queues exchanged" => {
            let (one, other) = (any_entry?, random.below(used));
            if owner(one) == owner(other) {
                return None;
            }
            state.entries.swap(one, other);
        }
        "falling rank at an inner node"
        | "falling rank at a leaf"
        | "falling rank, its low word the same" => {
            let first = match kind {
                "falling rank at an inner node" => inner_entry?,
                "falling rank at a leaf" => leaf_entry?,
                _ => any_entry?,
            };
            // Against the next of the same queue.
            let second = first + 1;
            if second == used || owner(second) != owner(first) {
                return None;
            }
            let (low, high) = (state.entries[first].rank, state.entries[second].rank);
            (state.entries[first].rank, state.entries[second].rank) = match kind {
                "falling rank, its low word the same" => (high.checked_add(1 << 32)?, high),
                _ if low == high => (high.checked_add(1)?, low),
                _ => (high, low),
            };
        }
        "packet for a child at an inner node" => {
            state.entries[inner_entry?].tag = random.pick(&[1, 2, 255]);
        }
        "packet more at an inner node" => {
            plain::append(state, inner_node?, &last(Item::Packet(1)))?;
        }
        "child for a packet at a leaf" => state.entries[leaf_entry?].tag = 0,
        "child more at a leaf" => {
            let child = Item::Child(random.pick(&[0, 1, 2]));
            plain::append(state, leaf, &last(child))?;
        }
        "child number 0" | "child number too large" => {
            let node = inner_node?;
            let past = |node: usize, random: &mut Random| match kind {
                "child number 0" => 0,
                _ => random.pick(&[children(node) as u8 + 1, 9, 255]),
            };
            // In place of another child, or as an entry more.
            if random.one_in(2) {
                let at = inner_entry?;
                state.entries[at].child = past(owner(at), random);
            } else {
                plain::append(state, node, &last(Item::Child(past(node, random))))?;
            }
        }
        "another child" => {
            let at = inner_entry?;
            state.entries[at].child = random.within(1..=children(owner(at))) as u8;
        }
        "child more" => {
            let node = inner_node?;
            let most = children(node) as u8;
            let any = random.within(1..=children(node)) as u8;
            plain::append(state, node, &last(Item::Child(random.pick(&[any, most]))))?;
        }
        "child 256 times more" => {
            let node = inner_node?;
            let child = Item::Child(random.within(1..=children(node)) as u8);
            for _ in 0..256 {
                plain::append(state, node, &last(child))?;
            }
        }
        "child less" => {
            let at = inner_entry?;
            plain::remove(state, owner(at), at);
        }
        "packet more or less at a leaf" => {
            if random.one_in(2) {
                let at = leaf_entry?;
                plain::remove(state, owner(at), at);
            } else {
                plain::append(state, leaf, &last(Item::Packet(1)))?;
            }
        }
        _ => unreachable!("a kind of damage without a name"),
    }
    Some(())
}
