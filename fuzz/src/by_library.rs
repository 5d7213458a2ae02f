//! Plays a call on the library, through its Rust wrapper. Every table and the journal lie between guard words, which must stay.

use crate::call::{Call, Lent, Reply};
use crate::model::answer::{Answer, Cursor, Handle, Kind, Row};
use crate::model::sequence::Checked;
use crate::model::store::{Header, Store};
use nektawul::{raw, StepAnswer, Tables, View};

/// Guard words on either side; none with the feature `exact`, so that valgrind sees where a table ends.
const GUARDS: usize = if cfg!(feature = "exact") { 0 } else { 4 };

/// A slice between guard words.
struct Guarded<T> {
    words: Vec<T>,
    guard: T,
}

impl<T: Copy + PartialEq> Guarded<T> {
    fn new(inner: impl Iterator<Item = T>, guard: T) -> Self {
        let around = || std::iter::repeat_n(guard, GUARDS);
        Guarded { words: around().chain(inner).chain(around()).collect(), guard }
    }

    fn inner(&mut self) -> &mut [T] {
        let end = self.words.len() - GUARDS;
        &mut self.words[GUARDS..end]
    }

    /// The slice's words, once the guards are seen to be whole.
    fn release(&mut self) -> &[T] {
        let guard = self.guard;
        let end = self.words.len() - GUARDS;
        let whole = |words: &[T]| words.iter().all(|&word| word == guard);
        assert!(whole(&self.words[..GUARDS]) && whole(&self.words[end..]), "the library wrote beside what it was lent");
        &self.words[GUARDS..end]
    }
}

/// A store's tables and header as the wrapper takes them.
struct Desk {
    generations: Guarded<u32>,
    links: Guarded<u16>,
    values: Guarded<u64>,
    header: nektawul::Header,
}

impl Desk {
    fn new(s: &Store) -> Desk {
        let Header { len, m, root, generation } = s.header;
        Desk {
            generations: Guarded::new(s.generations.iter().copied(), 0xA5A5_A5A5),
            links: Guarded::new(s.links.iter().copied(), 0xA5A5),
            values: Guarded::new(s.values.iter().copied(), 0xA5A5_A5A5_A5A5_A5A5),
            header: nektawul::Header { len, m, root, generation },
        }
    }

    fn parts(&mut self) -> (&mut nektawul::Header, Tables<'_>) {
        let (generations, links, values) = (self.generations.inner(), self.links.inner(), self.values.inner());
        (&mut self.header, Tables { generations, links, values })
    }

    fn release(mut self, s: &mut Store) {
        s.generations.copy_from_slice(self.generations.release());
        s.links.copy_from_slice(self.links.release());
        s.values.copy_from_slice(self.values.release());
        let nektawul::Header { len, m, root, generation } = self.header;
        s.header = Header { len, m, root, generation };
    }
}

fn ptr(h: Handle) -> nektawul::Ptr {
    nektawul::Ptr { index: h.index, generation: h.generation }
}

fn handle(p: nektawul::Ptr) -> Handle {
    Handle { index: p.index, generation: p.generation }
}

fn row_in(row: &Row) -> nektawul::Row {
    nektawul::Row { old: ptr(row.old), new: ptr(row.new), overflow: row.overflow }
}

fn row_out(row: &nektawul::Row) -> Row {
    Row { old: handle(row.old), new: handle(row.new), overflow: row.overflow }
}

fn guard_row() -> nektawul::Row {
    let p = nektawul::Ptr { index: 0xA5A5, generation: 0xA5A5_A5A5 };
    nektawul::Row { old: p, new: p, overflow: true }
}

fn answer(given: nektawul::Answer) -> Answer {
    let shown = |kind, p, value| Answer::bare(kind).showing(handle(p), value);
    match given {
        nektawul::Answer::Done(p, value) => shown(Kind::Done, p, value),
        nektawul::Answer::Overflow(p, value) => shown(Kind::Overflow, p, value),
        nektawul::Answer::Refused(refusal) => Answer::bare(Kind::Refused(refusal.number())),
    }
}

fn step_answer(given: StepAnswer) -> Answer {
    match given {
        StepAnswer::Ran(given) => answer(given),
        StepAnswer::End => Answer::bare(Kind::End),
        StepAnswer::TurnedDown(refusal, fault) => Answer::bare(Kind::TurnedDown(refusal.number(), fault)),
    }
}

fn checked(given: nektawul::Checked) -> Checked {
    Checked { refusal: given.refusal, fault: given.fault }
}

/// The calls that only read the tables.
fn look(call: &Call, header: &mut nektawul::Header, view: View<'_>, lent: &mut Lent) -> Reply {
    let mut cursor = nektawul::Cursor { index: lent.cursor.index, rev: lent.cursor.rev };
    let given = match *call {
        Call::Get(h) => raw::get(ptr(h), header, view),
        Call::SetGeneration(generation) => raw::set_generation(generation, header, view),
        Call::IncGeneration => raw::inc_generation(header, view),
        Call::FindFirst => raw::find_first_inx_ptr(header, view),
        Call::FindLast => raw::find_last_inx_ptr(header, view),
        Call::Advance => raw::advance(&mut cursor, header, view),
        Call::Audit => {
            let (given, looks) = raw::check_invariants(header, view);
            return Reply::Audit(answer(given), looks.into());
        }
        Call::Check => return Reply::Checked(checked(raw::check(lent.next, &lent.file, view))),
        Call::LentPlaces => return Reply::Places(raw::lent_places(&lent.file)),
        _ => unreachable!("a call that changes a table"),
    };
    lent.cursor = Cursor { index: cursor.index, rev: cursor.rev };
    Reply::Answer(answer(given))
}

/// The calls of one store that change a table, but those with a journal.
fn change(call: &Call, header: &mut nektawul::Header, tables: &mut Tables<'_>, lent: &mut Lent) -> Reply {
    let mut cursor = nektawul::Cursor { index: lent.cursor.index, rev: lent.cursor.rev };
    let given = match *call {
        Call::New => {
            raw::new(header, tables);
            return Reply::Nothing;
        }
        Call::Insert(value) => raw::insert_within_capacity(value, header, tables),
        Call::InsertReallocating(value) => raw::insert_reallocating(value, header, tables),
        Call::Remove(h) => raw::remove(ptr(h), header, tables),
        Call::RemoveInx(index) => raw::remove_inx(index, header, tables),
        Call::Invalidate(h) => raw::invalidate(ptr(h), header, tables),
        Call::Put(value, h) => raw::put(value, ptr(h), header, tables),
        Call::Clear => raw::clear(header, tables),
        Call::Order => raw::canonicalize_freelist(header, tables),
        Call::Reserve(places) => raw::reallocate_min_capacity(places, header, tables),
        Call::Drain => raw::drain(&mut cursor, header, tables),
        _ => return look(call, header, tables.view(), lent),
    };
    lent.cursor = Cursor { index: cursor.index, rev: cursor.rev };
    Reply::Answer(answer(given))
}

/// A sequence's step or run.
fn sequence(
    call: &Call,
    header: &mut nektawul::Header,
    tables: &mut Tables<'_>,
    rows: &mut [nektawul::Row],
    lent: &mut Lent,
) -> Reply {
    let mut state = nektawul::State { next: lent.next, header: *header };
    let reply = match call {
        Call::Step => Reply::Answer(step_answer(raw::step(&mut state, &lent.file, tables, rows))),
        _ => {
            let (found, tally) = raw::run(&mut state, &lent.file, tables, rows);
            Reply::Run(checked(found), tally)
        }
    };
    (lent.next, *header) = (state.next, state.header);
    reply
}

/// The calls that are lent the journal.
fn journaled(call: &Call, desk: &mut Desk, other: &mut Desk, rows: &mut [nektawul::Row], lent: &mut Lent) -> Reply {
    let (header, mut tables) = desk.parts();
    let (from, mut source) = other.parts();
    match *call {
        Call::Compress(reset) => Reply::Answer(answer(raw::compress_with(reset, header, &mut tables, rows))),
        Call::Transfer(generation) => {
            let given = raw::transfer_reallocating(generation, header, &mut tables, from, &mut source, rows);
            Reply::Answer(answer(given))
        }
        _ => sequence(call, header, &mut tables, rows, lent),
    }
}

fn with_journal(call: &Call, desk: &mut Desk, other: &mut Desk, lent: &mut Lent) -> Reply {
    let mut rows = Guarded::new(lent.journal.iter().map(row_in), guard_row());
    let reply = journaled(call, desk, other, rows.inner(), lent);
    lent.journal = rows.release().iter().map(row_out).collect();
    reply
}

fn copy(desk: &mut Desk, other: &mut Desk) -> Reply {
    let (header, mut tables) = desk.parts();
    let (from, source) = other.parts();
    Reply::Answer(answer(raw::clone_from_with(header, &mut tables, from, source.view())))
}

pub fn play(call: &Call, lent: &mut Lent) -> Reply {
    let (mut desk, mut other) = (Desk::new(&lent.store), Desk::new(&lent.other));
    let reply = match call {
        Call::Compress(_) | Call::Transfer(_) | Call::Step | Call::Run => {
            with_journal(call, &mut desk, &mut other, lent)
        }
        Call::Copy => copy(&mut desk, &mut other),
        _ => {
            let (header, mut tables) = desk.parts();
            change(call, header, &mut tables, lent)
        }
    };
    desk.release(&mut lent.store);
    other.release(&mut lent.other);
    reply
}
