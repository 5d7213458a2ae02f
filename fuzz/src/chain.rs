//! A chain of calls: what one call leaves, the next is lent.

use crate::call::{Call, Lent, Reply};
use crate::calls;
use crate::draw::Draw;
use crate::model::answer::Handle;
use crate::model::store::Store;
use crate::stores;

/// How many handles answered before are kept, to be used again when they are stale.
const KEPT: usize = 12;

pub struct Chain {
    pub lent: Lent,
    seen: Vec<Handle>,
    /// Whether words are damaged on the way.
    damage: bool,
    calls_left: usize,
}

type Make = fn(&mut Draw) -> Store;

impl Chain {
    pub fn start(d: &mut Draw) -> Chain {
        let (make, damage, most): (Make, bool, usize) = match d.below(16) {
            0..=3 => (stores::new, false, 80),
            4..=7 => (stores::sound, false, 30),
            8..=11 => (stores::damaged, false, 10),
            12 | 13 => (stores::sound, true, 12),
            _ => (stores::arbitrary, false, 5),
        };
        let (store, other) = (make(d), make(d));
        let cursor = calls::cursor(d, &store);
        let lent = Lent { store, other, journal: Vec::new(), cursor, next: 1, file: Vec::new() };
        Chain { lent, seen: Vec::new(), damage, calls_left: 1 + d.below(most) }
    }

    /// The next call, with what it is lent made ready; none at the chain's end.
    pub fn next_call(&mut self, d: &mut Draw) -> Option<Call> {
        self.calls_left = self.calls_left.checked_sub(1)?;
        if d.one_in(8) {
            std::mem::swap(&mut self.lent.store, &mut self.lent.other);
        }
        if self.damage && d.one_in(4) {
            stores::damage(d, &mut self.lent.store);
        }
        let call = calls::draw(d, &self.lent.store, &self.seen);
        calls::lend(d, &call, &self.seen, &mut self.lent);
        Some(call)
    }

    /// What the call left, and the handle that it answered.
    pub fn go_on(&mut self, lent: Lent, reply: &Reply, d: &mut Draw) {
        self.lent = lent;
        let Reply::Answer(answer) = reply else { return };
        if answer.handle.index == 0 {
            return;
        }
        if self.seen.len() == KEPT {
            let forgotten = d.below(KEPT);
            self.seen.swap_remove(forgotten);
        }
        self.seen.push(answer.handle);
    }
}
