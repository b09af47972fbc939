//! Both trees on one sheet: each call goes to the source tree and to the chip
//! tree. That they answer alike, hold as many packets and count as many
//! refusals is asserted before the first call and after every call.

use crate::queue_tree::{QueueTree, Refusal};
use crate::translator::{Path, Translator};

pub struct BothTrees {
    source: QueueTree,
    chip: QueueTree,
    translator: Translator,
    accepted: usize,
    departed: usize,
    turned_away: u32,
}

impl BothTrees {
    /// Opens both, or answers the number of the refusal.
    pub fn open(source: &[u8], target: &[u8], map: &[u8], limit: usize) -> Result<BothTrees, u8> {
        let translator = Translator::new(source, target, map)?;
        let open = |topology| QueueTree::open(topology, limit).map_err(Refusal::number);
        let both = BothTrees {
            source: open(source)?,
            chip: open(target)?,
            translator,
            accepted: 0,
            departed: 0,
            turned_away: 0,
        };
        both.assert_alike();
        Ok(both)
    }

    pub fn push(&mut self, path: &Path, packet: u32) -> Result<usize, Refusal> {
        let answer = self.source.push(&path.steps, path.leaf_rank, packet);
        let carried = self.translator.carry(path);
        let chip =
            carried.and_then(|carried| self.chip.push(&carried.steps, carried.leaf_rank, packet));
        assert_eq!(answer, chip, "a push of {packet} along {path:?}");
        match answer {
            Ok(_) => self.accepted += 1,
            Err(Refusal::Full(_)) => self.turned_away = self.turned_away.saturating_add(1),
            Err(_) => {}
        }
        self.assert_alike();
        answer
    }

    pub fn pop(&mut self) -> Result<u32, Refusal> {
        let answer = self.source.pop().map(|departure| departure.packet);
        let chip = self.chip.pop().map(|departure| departure.packet);
        assert_eq!(answer, chip, "a pop");
        if answer.is_ok() {
            self.departed += 1;
        }
        self.assert_alike();
        answer
    }

    pub fn held(&self) -> usize {
        self.source.held()
    }

    pub fn refusals(&self) -> u32 {
        self.source.refusals()
    }

    fn assert_alike(&self) {
        let held = self.accepted - self.departed;
        assert_eq!((self.source.held(), self.chip.held()), (held, held));
        let refusals = (self.source.refusals(), self.chip.refusals());
        assert_eq!(refusals, (self.turned_away, self.turned_away));
    }
}
