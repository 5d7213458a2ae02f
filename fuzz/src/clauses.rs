//! Situations that a run must have met, beside each call's answers: every clause of the refusals with several, and the limits.

use crate::call::{Call, Lent, Reply};
use crate::model::answer::Kind;
use crate::model::store::Store;

/// A call that was played: what it was lent, and what it left and gave.
pub struct Played<'a> {
    pub call: &'a Call,
    pub before: &'a Lent,
    pub after: &'a Lent,
    pub reply: &'a Reply,
}

type Clause = (&'static str, fn(&Played) -> bool);

impl Played<'_> {
    fn refused(&self, number: u8) -> bool {
        match self.reply {
            Reply::Answer(a) | Reply::Audit(a, _) => match a.kind {
                Kind::Refused(n) | Kind::TurnedDown(n, _) => n == number,
                _ => false,
            },
            Reply::Checked(c) | Reply::Run(c, _) => c.refusal == number,
            Reply::Nothing | Reply::Places(_) => false,
        }
    }

    fn done(&self) -> bool {
        matches!(self.reply, Reply::Answer(a) if a.kind == Kind::Done)
    }

    fn two_stores(&self) -> bool {
        matches!(self.call, Call::Transfer(_) | Call::Copy)
    }

    fn inserts(&self) -> bool {
        matches!(self.call, Call::Insert(_) | Call::InsertReallocating(_))
    }

    /// The place that a removal names.
    fn removed_place(&self) -> Option<u16> {
        match *self.call {
            Call::Remove(h) => Some(h.index),
            Call::RemoveInx(index) => Some(index),
            _ => None,
        }
    }

    /// 4 for an insert by this clause alone: the root live, its link 0, its link above m, `len` equal to m.
    fn root_alone(&self, clause: usize) -> bool {
        if !self.inserts() || !self.refused(4) {
            return false;
        }
        let s = &self.before.store;
        let (link, h) = (s.link(s.header.root), s.header);
        alone([s.live(h.root), link == 0, link > h.m, h.len == h.m], clause)
    }

    fn header_alone(&self, clause: usize) -> bool {
        self.refused(2) && alone(header_clauses(&self.before.store), clause)
    }

    /// 1 because this table alone, of generations, links and values, is of another length.
    fn length_alone(&self, table: usize) -> bool {
        let [a, b, c] = lengths(&self.before.store);
        self.refused(1) && alone([b == c && a != b, a == c && b != a, a == b && c != a], table)
    }

    fn head(&self, byte: usize) -> Option<u8> {
        self.before.file.get(byte).copied()
    }

    fn commands(&self) -> usize {
        self.before.file.len().saturating_sub(8) / 16
    }

    /// The bytes of the command that the check found at fault.
    fn at_fault(&self) -> Option<&[u8]> {
        let fault = match self.reply {
            Reply::Checked(c) | Reply::Run(c, _) if c.refusal == 13 => c.fault as usize,
            _ => return None,
        };
        self.before.file.get(16 * fault - 8..)
    }

    fn drain_ends_with_messages(&self) -> bool {
        matches!(self.call, Call::Drain)
            && self.done()
            && self.after.store.header.m == 0
            && self.before.store.header.len > 1
    }
}

fn lengths(s: &Store) -> [usize; 3] {
    [s.generations.len(), s.links.len(), s.values.len()]
}

fn fits(s: &Store) -> bool {
    let [a, b, c] = lengths(s);
    a == b && b == c && a <= 1_024
}

/// 2's clauses: m above C, `len` above m, the root above m, generation 0.
fn header_clauses(s: &Store) -> [bool; 4] {
    let h = s.header;
    [h.m as usize > s.generations.len(), h.len > h.m, h.root > h.m, h.generation == 0]
}

fn alone<const N: usize>(clauses: [bool; N], one: usize) -> bool {
    clauses[one] && clauses.iter().filter(|&&holds| holds).count() == 1
}

pub const CLAUSES: [Clause; 38] = [
    ("1: the generations of another length", |p| p.length_alone(0)),
    ("1: the links of another length", |p| p.length_alone(1)),
    ("1: the values of another length", |p| p.length_alone(2)),
    ("1: 1,025 entries", |p| p.refused(1) && lengths(&p.before.store) == [1_025; 3]),
    ("1: more than 65,535 entries", |p| p.refused(1) && lengths(&p.before.store)[0] > 65_535),
    ("1: the source alone", |p| p.two_stores() && p.refused(1) && fits(&p.before.store)),
    ("2: m above C", |p| p.header_alone(0)),
    ("2: len above m", |p| p.header_alone(1)),
    ("2: the root above m", |p| p.header_alone(2)),
    ("2: generation 0", |p| p.header_alone(3)),
    ("2: the source alone", |p| p.two_stores() && p.refused(2) && header_clauses(&p.before.store) == [false; 4]),
    ("4: insert, the root live", |p| p.root_alone(0)),
    ("4: insert, the root's link 0", |p| p.root_alone(1)),
    ("4: insert, the root's link above m", |p| p.root_alone(2)),
    ("4: insert, len is m", |p| p.root_alone(3)),
    ("4: removal, len is 0", |p| p.refused(4) && p.removed_place().is_some_and(|i| i != p.before.store.header.root)),
    ("4: removal, the root names it", |p| {
        p.refused(4) && p.before.store.header.len > 0 && p.removed_place() == Some(p.before.store.header.root)
    }),
    ("6: a live place of another generation", |p| {
        p.refused(6) && matches!(p.call, Call::Get(h) if p.before.store.live(h.index))
    }),
    ("6: a free place", |p| {
        p.refused(6)
            && matches!(p.call, Call::Get(h) if h.index <= p.before.store.header.m && !p.before.store.live(h.index))
    }),
    ("10: fewer than 8 bytes", |p| p.refused(10) && p.before.file.len() < 8),
    ("10: not 8 + 16n bytes", |p| p.refused(10) && p.before.file.len() % 16 != 8),
    ("10: 4,096 commands", |p| p.refused(10) && p.before.file.len() == 8 + 16 * 4_096),
    ("11: the mark", |p| p.refused(11) && !p.before.file.starts_with(b"TTS")),
    ("11: the version", |p| p.refused(11) && (p.head(3), p.head(4)) != (Some(1), Some(0))),
    ("11: the eighth byte", |p| p.refused(11) && p.head(7) != Some(0)),
    ("12: the next number 0", |p| p.refused(12) && p.before.next == 0),
    ("12: the next number above n + 1", |p| p.refused(12) && p.before.next as usize == p.commands() + 2),
    ("13: an unknown command", |p| p.at_fault().is_some_and(|c| c[0] == 0 || c[0] > 10)),
    ("13: a field not used", |p| p.at_fault().is_some_and(|c| (1..=10).contains(&c[0]) && c[1] == 0)),
    ("13: a compress flag above 1", |p| p.at_fault().is_some_and(|c| c[0] == 7 && c[1] > 1)),
    ("a get on 1,024 places", |p| matches!(p.call, Call::Get(_)) && p.done() && lengths(&p.before.store)[0] == 1_024),
    ("an insert at place 1,024", |p| {
        p.inserts() && p.before.store.header.m == 1_023 && p.after.store.header.m == 1_024
    }),
    ("a run of 4,095 commands", |p| matches!(p.call, Call::Run) && p.before.next == 1 && p.after.next == 4_096),
    ("a run from a later number", |p| matches!(p.call, Call::Run) && p.before.next > 1 && p.after.next > p.before.next),
    ("a cursor from 65,535 forward", |p| {
        matches!(p.call, Call::Advance) && p.before.cursor.index == 65_535 && p.after.cursor.index == 0
    }),
    ("a drain that ends with messages there", |p| p.drain_ends_with_messages()),
    ("an overflow that a drain's end hides", |p| {
        p.drain_ends_with_messages() && p.before.store.header.generation == u32::MAX
    }),
    ("an overflow in a transfer's row", |p| {
        let mut rows = p.after.journal.iter().take(p.before.other.header.len as usize);
        matches!(p.call, Call::Transfer(_)) && p.done() && rows.any(|row| row.overflow)
    }),
];
