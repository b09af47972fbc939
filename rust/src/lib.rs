//! The calls of Linduvar for Rust: PIFO trees that are fitted to a fixed chip, proved in Rattle.
//!
//! Each module has safe functions over the calls of `liblinduvar.a`, which `tools/library` builds. An answer has its refusal in the field `refusal`,
//! or is that number itself; 0 means that nothing is refused. `include/linduvar.h` lists the refusals of each call in the order in which they are
//! tested, `docs/REFUSALS.md` says what each means, and `docs/C.md` how much stack and time a call takes.
//!
//! States and trees go in and come out by value, in the form of plain numbers that C and Rust share. A function here takes a reference and makes the
//! copy that the call needs. Go on with the state or tree of the answer: from an old one a packet leaves twice.

pub mod chip;
pub mod maps;
pub mod queue;
mod structs;
pub mod topology;
pub mod tree;
mod version;

pub use structs::{
    Amount, Answer, Carried, Diagnosis, Disciplines, Entry, Frame, Opened, PairOpened, Path,
    Popped, Rule, Rules, State, Step, Taken, Tree, TreeAnswer, TreeOpened, Way,
};
pub use version::{layout, LAYOUT, VERSION};

/// The most nodes of a source.
pub const MAX_SOURCE_NODES: usize = 32;
/// The most nodes of a target, and of a tree by itself.
pub const MAX_TARGET_NODES: usize = 64;
/// The most children of a node.
pub const MAX_CHILDREN: usize = 8;
/// The most steps from the root down to a node.
pub const MAX_DEPTH: usize = 8;
/// The largest packet limit.
pub const MAX_PACKETS: usize = 256;
/// The places of a path or a way. A ninth step is refused by 13.
pub const MAX_STEPS: usize = 9;
/// The most entries of a state.
pub const MAX_ENTRIES: usize = 2304;
/// The stack of a thread that calls, in bytes. Measured and rounded up, and no
/// bound that is proved (docs/C.md).
pub const STACK_BYTES: usize = 851_968;
/// In a map: an inner node with one child, which has no image.
pub const PASSED_OVER: u8 = 255;
/// From [`maps::search`]: there is a map, but no room for it.
pub const NO_ROOM: u8 = 255;
/// From [`topology::branch_byte`]: there is no such byte.
pub const NO_BYTE: u8 = 255;

/// The disciplines of a node.
pub const ARRIVAL: u8 = 0;
pub const STRICT: u8 = 1;
pub const WEIGHTED: u8 = 2;

/// What a branch that fits nowhere lacks, from [`maps::why`].
pub const LACKS_DEPTH: u8 = 1;
pub const LACKS_LEAVES: u8 = 2;
pub const LACKS_ROOM: u8 = 3;
