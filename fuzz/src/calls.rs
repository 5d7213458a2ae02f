//! Calls drawn for the stores at hand.

use crate::call::{Call, Lent};
use crate::draw::Draw;
use crate::model::answer::{Cursor, Handle, Row};
use crate::model::store::Store;

/// A place of the stack that has a message, or has none, as far as the tables reach.
fn place(d: &mut Draw, s: &Store, live: bool) -> Option<Handle> {
    let reach = s.generations.len().min(s.header.m as usize);
    let from = d.below(reach.max(1));
    let places = (0..reach).map(|i| (from + i) % reach + 1);
    places.map(|place| s.handle(place as u16)).find(|h| (h.generation != 0) == live)
}

/// A generation given to a call: rarely 0.
pub fn given(d: &mut Draw, at_hand: u32) -> u32 {
    if d.one_in(12) {
        0
    } else {
        d.generation(at_hand)
    }
}

fn forged(d: &mut Draw, s: &Store) -> Handle {
    Handle { index: d.index(s.generations.len()), generation: given(d, s.header.generation) }
}

/// A handle: live, of another generation, of a free place, seen before, or forged.
pub fn handle(d: &mut Draw, s: &Store, seen: &[Handle]) -> Handle {
    let drawn = match d.below(10) {
        0..=4 => place(d, s, true),
        5 => place(d, s, true).map(|h| Handle { generation: given(d, h.generation), ..h }),
        6 => place(d, s, false).map(|h| Handle { generation: given(d, s.header.generation), ..h }),
        7 | 8 => d.any_of(seen),
        _ => None,
    };
    drawn.unwrap_or_else(|| forged(d, s))
}

fn reserved(d: &mut Draw, s: &Store) -> usize {
    let c = s.generations.len();
    match d.below(6) {
        0 => d.of(&[65_535, 65_536, 65_537, 1 << 32, usize::MAX]),
        1 => d.word() as usize,
        2 => d.of(&[c, c + 1]),
        _ => d.below(c + 2),
    }
}

fn any_handle(d: &mut Draw) -> Handle {
    Handle { index: d.word() as u16, generation: d.word() as u32 }
}

/// A row with any contents.
pub fn row(d: &mut Draw) -> Row {
    Row { old: any_handle(d), new: any_handle(d), overflow: d.one_in(2) }
}

/// A journal for this many messages: too short, just enough, longer.
fn journal(d: &mut Draw, messages: u16) -> Vec<Row> {
    let enough = messages.min(1_025) as usize;
    let rows = match d.below(5) {
        0 => enough.saturating_sub(1),
        1 => d.below(enough + 1),
        2 => enough,
        _ => enough + d.below(4),
    };
    (0..rows).map(|_| row(d)).collect()
}

pub fn cursor(d: &mut Draw, s: &Store) -> Cursor {
    let index = match d.below(5) {
        0 | 1 => 1,
        2 => s.header.m,
        _ => d.index(s.generations.len()),
    };
    Cursor { index, rev: d.one_in(2) }
}

/// Draws anew, now and then, what the call will be lent beside the stores.
pub fn lend(d: &mut Draw, call: &Call, seen: &[Handle], lent: &mut Lent) {
    match call {
        Call::Advance | Call::Drain => lend_cursor(d, lent),
        Call::Compress(_) if d.one_in(2) => lent.journal = journal(d, lent.store.header.len),
        Call::Transfer(_) if d.one_in(2) => lent.journal = journal(d, lent.other.header.len),
        Call::Check | Call::LentPlaces | Call::Run if d.one_in(2) => lend_file(d, seen, lent),
        Call::Step if lent.file.is_empty() || d.one_in(8) => lend_file(d, seen, lent),
        _ => (),
    }
}

/// A cursor that is spent or past the end is left so only now and then.
fn lend_cursor(d: &mut Draw, lent: &mut Lent) {
    let ended = lent.cursor.index == 0 || lent.cursor.index > lent.store.header.m;
    if d.one_in(if ended { 2 } else { 8 }) {
        lent.cursor = cursor(d, &lent.store);
    }
}

fn lend_file(d: &mut Draw, seen: &[Handle], lent: &mut Lent) {
    lent.file = crate::files::draw(d, &lent.store, seen);
    lent.journal = journal(d, lent.store.header.len);
    let commands = lent.file.len() / 16;
    lent.next = if d.one_in(4) { d.index(commands) } else { 1 };
}

pub fn draw(d: &mut Draw, s: &Store, seen: &[Handle]) -> Call {
    match d.below(36) {
        0 if d.one_in(8) => Call::New,
        0..=4 => Call::Insert(d.value()),
        5 | 6 => Call::InsertReallocating(d.value()),
        7 | 8 => Call::Remove(handle(d, s, seen)),
        9 => Call::RemoveInx(handle(d, s, seen).index),
        10 => Call::Invalidate(handle(d, s, seen)),
        11 => Call::Get(handle(d, s, seen)),
        12 => Call::Put(d.value(), handle(d, s, seen)),
        13 if d.one_in(2) => Call::Clear,
        13 | 14 => Call::Order,
        15 => Call::Compress(d.one_in(4)),
        16 => Call::Reserve(reserved(d, s)),
        17 => Call::Transfer(given(d, s.header.generation)),
        18 => Call::Copy,
        19 | 20 => Call::Advance,
        21 | 22 => Call::Drain,
        23 => Call::FindFirst,
        24 => Call::FindLast,
        25 => Call::SetGeneration(given(d, s.header.generation)),
        26 => Call::IncGeneration,
        27 | 28 => Call::Audit,
        29 => Call::Check,
        30 => Call::LentPlaces,
        31..=33 => Call::Step,
        _ => Call::Run,
    }
}
