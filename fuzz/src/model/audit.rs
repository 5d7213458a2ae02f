//! The audit: a verdict, and how many chain places were looked at.

use super::answer::{Answer, Handle, Outcome};
use super::refusals;
use super::store::Store;

/// Verdict and look count of a store whose tables are equally long. The header may be anything.
pub fn verdict(s: &Store) -> (u64, u32) {
    let h = s.header;
    if h.generation < 2 {
        return (1, 0);
    }
    if h.len as usize > s.capacity() || h.m as usize > s.capacity() {
        return (2, 0);
    }
    if s.live_places().len() != h.len as usize {
        return (3, 0);
    }
    let free = s.free_places().len();
    if (free == 0) != (h.root == 0) {
        return (4, 0);
    }
    if free == 0 {
        return (0, 0);
    }
    follow(s, free)
}

/// Follows the chain from the root, which is there. More looks than m + 1 are only to be had from an endless chain.
fn follow(s: &Store, free: usize) -> (u64, u32) {
    let mut place = s.header.root;
    for looks in 1..=s.header.m as u32 + 1 {
        if place > s.header.m {
            return (6, looks);
        }
        if s.live(place) {
            return (7, looks);
        }
        let next = s.link(place);
        if next == place {
            return (if looks as usize == free { 0 } else { 9 }, looks);
        }
        if next == 0 {
            return (5, looks);
        }
        place = next;
    }
    (8, s.header.m as u32 + 2)
}

/// The audit as a call: it tests 1 alone. The verdict is the value of its answer.
pub fn audit(s: &Store) -> (Outcome, u32) {
    if let Err(number) = refusals::tables(s) {
        return (Err(number), 0);
    }
    let (verdict, looks) = verdict(s);
    (Ok(Answer::done().showing(Handle::default(), verdict)), looks)
}
