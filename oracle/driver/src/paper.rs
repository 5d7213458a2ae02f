//! What document 01 decides before the Rust is asked: refusals 1 to 5, in its order, each call with the tests that it has.
use crate::{
    calls::{Journal, verdict},
    script::{Code, Code::*, Line},
    store::Store,
};

/// 1: the three tables differ in length or exceed 1,024 entries.
fn tables_unfit(s: &Store) -> bool {
    let [generations, links, values] = s.lengths;
    generations != links || generations != values || generations > 1024
}

/// 2: m exceeds C, `len` or the root exceeds m, or the current generation is 0.
fn header_unfit(s: &Store) -> bool {
    let h = &s.header;
    h.m > s.capacity() || h.len > h.m as u64 || usize::from(h.root) > h.m || h.generation == 0
}

/// 3: an index or generation argument is 0.
fn zero_argument(line: &Line) -> bool {
    let w = &line.words;
    match line.code {
        Remove | Invalidate | Get | Put => w[0] as u16 == 0 || w[1] as u32 == 0,
        RemoveInx => w[0] as u16 == 0,
        SetGeneration | Transfer => w[0] as u32 == 0,
        _ => false,
    }
}

/// 4 for compress, transfer and copy: the audit is not 0.
fn audit_fails(s: &Store) -> bool {
    s.arena.as_ref().is_some_and(|arena| verdict(arena) != 0)
}

/// 4 for order and reserve.
fn count_wrong(s: &Store) -> bool {
    s.live_places() != s.header.len
}

/// 4 for insert with a root.
fn root_unsound(s: &Store) -> bool {
    let root = usize::from(s.header.root);
    if root == 0 {
        return false;
    }
    let link = usize::from(s.place(root).link);
    s.live(root) || link == 0 || link > s.header.m || s.header.len == s.header.m as u64
}

/// 4 for removal of the place of this index.
pub fn removal_unsound(s: &Store, index: u16) -> bool {
    s.live(usize::from(index)) && (s.header.len == 0 || s.header.root == index)
}

/// 5: the journal has fewer rows than messages to be moved.
fn journal_short(s: &Store, journal: &Journal) -> bool {
    (journal.rows() as u64) < s.header.len
}

fn unsound(line: &Line, s: &Store, source: &Store) -> bool {
    match line.code {
        InsertWithinCapacity | InsertReallocating => root_unsound(s),
        Remove | RemoveInx => removal_unsound(s, line.words[0] as u16),
        Order | Reserve => count_wrong(s),
        Compress => audit_fails(s),
        Transfer | CopyFrom => audit_fails(s) || audit_fails(source),
        _ => false,
    }
}

/// Whether a call is about two stores.
pub fn has_two(code: Code) -> bool {
    matches!(code, Transfer | CopyFrom)
}

/// The number of the first refusal, 1 to 5, that holds, or 0; none where that hangs on a store that the Rust cannot hold. `s` is the store, for
/// transfer and copy the destination.
pub fn refusal(line: &Line, s: &Store, source: &Store, journal: &Journal) -> Option<u8> {
    let two = has_two(line.code);
    if tables_unfit(s) || two && tables_unfit(source) {
        return Some(1);
    }
    if line.code != Audit && (header_unfit(s) || two && header_unfit(source)) {
        return Some(2);
    }
    if zero_argument(line) {
        return Some(3);
    }
    if s.arena.is_none() || two && source.arena.is_none() {
        return None;
    }
    if unsound(line, s, source) {
        return Some(4);
    }
    let short = match line.code {
        Compress => journal_short(s, journal),
        Transfer => journal_short(source, journal),
        _ => false,
    };
    Some(if short { 5 } else { 0 })
}
