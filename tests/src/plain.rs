//! States of the second implementation written as the Rattle library has them at
//! its boundary, as plain numbers, and read from there.

use crate::queue_tree::{Entry, Item, State, Taken, MOST_ENTRIES};
use crate::topology::TARGET_NODES;
use linduvar::{Frame, Way, MAX_STEPS};

/// What stands where no entry was put.
const NO_ENTRY: linduvar::Entry = linduvar::Entry {
    rank: 0,
    tag: 0,
    child: 0,
    packet: 0,
};

pub fn entry(entry: &Entry) -> linduvar::Entry {
    let (tag, child, packet) = match entry.item {
        Item::Child(child) => (0, child, 0),
        Item::Packet(packet) => (1, 0, packet),
    };
    linduvar::Entry {
        rank: entry.rank,
        tag,
        child,
        packet,
    }
}

fn read_entry(plain: &linduvar::Entry) -> Entry {
    let item = match plain.tag {
        0 => Item::Child(plain.child),
        _ => Item::Packet(plain.packet),
    };
    Entry {
        rank: plain.rank,
        item,
    }
}

pub fn state(state: &State) -> linduvar::State {
    let mut plain = linduvar::State {
        frame: Frame {
            topology: [0; TARGET_NODES],
            nodes: state.queues.len(),
            limit: state.limit,
        },
        refused: state.refused,
        lengths: [0; TARGET_NODES],
        entries: [NO_ENTRY; MOST_ENTRIES],
    };
    plain.frame.topology[..state.topology.len()].copy_from_slice(&state.topology);
    for (node, queue) in state.queues.iter().enumerate() {
        for entry in queue {
            append(&mut plain, node, entry).expect("room for each entry");
        }
    }
    plain
}

/// None if there are more nodes or entries than there can be.
pub fn read(plain: &linduvar::State) -> Option<State> {
    let frame = &plain.frame;
    let mut entries = &plain.entries[..];
    let mut queues = Vec::new();
    for &length in plain.lengths.get(..frame.nodes)? {
        let (queue, behind) = entries.split_at_checked(usize::from(length))?;
        queues.push(queue.iter().map(read_entry).collect());
        entries = behind;
    }
    Some(State {
        topology: frame.topology[..frame.nodes].to_vec(),
        limit: frame.limit,
        refused: plain.refused,
        queues,
    })
}

/// Where the queue of a node begins.
fn start(plain: &linduvar::State, node: usize) -> usize {
    let before = &plain.lengths[..node];
    before.iter().map(|&length| usize::from(length)).sum()
}

/// How many entries there are.
pub fn used(plain: &linduvar::State) -> usize {
    start(plain, plain.frame.nodes)
}

/// Adds an entry behind all others of a queue; None if there is no room.
pub fn append(plain: &mut linduvar::State, node: usize, new: &Entry) -> Option<()> {
    let (at, used) = (start(plain, node + 1), used(plain));
    if used == MOST_ENTRIES {
        return None;
    }
    plain.entries.copy_within(at..used, at + 1);
    plain.entries[at] = entry(new);
    plain.lengths[node] += 1;
    Some(())
}

/// Takes an entry out of the queue that it is in.
pub fn remove(plain: &mut linduvar::State, node: usize, at: usize) {
    let used = used(plain);
    plain.entries.copy_within(at + 1..used, at);
    plain.lengths[node] -= 1;
}

/// The same with every entry written anew, those behind the last included, as the
/// library gives a state back: tags are 0 and 1, and a child has the packet 0, a
/// packet the child 0.
pub fn rewritten(plain: &linduvar::State) -> linduvar::State {
    let mut plain = *plain;
    for place in &mut plain.entries {
        *place = entry(&read_entry(place));
    }
    plain
}

pub fn way(way: &[Taken]) -> Way {
    let none = Taken {
        node: 0,
        child: 0,
        rank: 0,
    };
    let mut plain = Way {
        taken: [none; MAX_STEPS],
        count: way.len(),
    };
    plain.taken[..way.len()].copy_from_slice(way);
    plain
}
