//! The queue tree.

use crate::{Amount, Answer, Opened, Path, Popped, State};

mod boundary {
    use super::*;

    extern "C" {
        pub fn linduvar_open(bytes: *const u8, length: usize, limit: usize) -> Opened;
        pub fn linduvar_push(state: State, path: Path, packet: u32) -> Answer;
        pub fn linduvar_pop(state: State) -> Popped;
        pub fn linduvar_held(state: State) -> Amount;
        pub fn linduvar_refusals(state: State) -> Amount;
    }
}

// Safety, for every call below: a state and a path go in and come out by
// value, and the types are those of the library, laid out as C does. The
// pointer and the length of a topology are those of one slice, which outlives
// the call, and the library only reads from it.

/// An empty tree with a packet limit.
pub fn open(topology: &[u8], limit: usize) -> Opened {
    unsafe { boundary::linduvar_open(topology.as_ptr(), topology.len(), limit) }
}

/// Pushes a packet along a path.
pub fn push(state: &State, path: &Path, packet: u32) -> Answer {
    unsafe { boundary::linduvar_push(*state, *path, packet) }
}

/// Pops the packet at the head.
pub fn pop(state: &State) -> Popped {
    unsafe { boundary::linduvar_pop(*state) }
}

/// How many packets the tree holds.
pub fn held(state: &State) -> Amount {
    unsafe { boundary::linduvar_held(*state) }
}

/// How many pushes the tree has refused by 15.
pub fn refusals(state: &State) -> Amount {
    unsafe { boundary::linduvar_refusals(*state) }
}
