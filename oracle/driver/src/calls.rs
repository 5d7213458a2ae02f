//! The calls of the Rust, one for each code of the script, and its answers in document 01's numbers.
use std::{
    num::{NonZeroU16, NonZeroU32},
    sync::LazyLock,
};

use triple_arena::{
    InvalidationOption, InvalidationResult,
    arena_iterators::PtrAdvancer,
    errors::ReallocationError,
    traits::{Advancer, ArenaCloneFromWith, ArenaInsertTrait, ArenaTrait, Ptr},
};

use crate::{
    paper,
    script::{Code::*, Line},
    store::{Effect, Handle, MOST, Messages, Store},
};

/// A row of the journal.
#[derive(Clone, Copy, PartialEq, Eq, Default)]
pub struct Row {
    pub old: (u16, u32),
    pub new: (u16, u32),
    pub overflow: bool,
}

/// The journal: its five columns' lengths, and what they hold.
pub struct Journal {
    pub lengths: [usize; 5],
    rows: Vec<Row>,
}

impl Journal {
    pub fn without_rows() -> Self {
        Self { lengths: [0; 5], rows: vec![Row::default(); MOST] }
    }

    /// How many rows all columns have.
    pub fn rows(&self) -> usize {
        self.lengths.into_iter().min().unwrap_or(0)
    }

    pub fn fill(&mut self, row: Row) {
        self.rows.fill(row);
    }

    /// The rows of the longest column. A field beyond its column is 0.
    pub fn shown(&self) -> impl Iterator<Item = [u64; 5]> {
        let [a, b, c, d, e] = self.lengths;
        let last = a.max(b).max(c).max(d).max(e);
        self.rows[..last].iter().enumerate().map(move |(i, row)| {
            let within = |length: usize, n: u64| if i < length { n } else { 0 };
            [
                within(a, row.old.0.into()),
                within(b, row.old.1.into()),
                within(c, row.new.0.into()),
                within(d, row.new.1.into()),
                within(e, row.overflow.into()),
            ]
        })
    }
}

/// An answer: the handle and the value it shows, or document 01's number beside the Rust's own word.
#[derive(Clone, PartialEq, Eq, Debug)]
pub enum Answer {
    Done(u16, u32, u64),
    Overflow(u16, u32, u64),
    Refused(u8, &'static str),
    Panicked,
}

use Answer::{Done, Overflow, Refused};

const NOTHING: Answer = Done(0, 0, 0);

/// An answer, and what else a call hands back.
pub struct Outcome {
    pub answer: Answer,
    pub looks: Option<usize>,
    pub cursor: Option<(u16, bool)>,
}

impl From<Answer> for Outcome {
    fn from(answer: Answer) -> Self {
        Self { answer, looks: None, cursor: None }
    }
}

fn done(p: Handle, value: u64) -> Answer {
    Done(p.inx().get(), p.generation().get(), value)
}

fn overflow(p: Handle, value: u64) -> Answer {
    Overflow(p.inx().get(), p.generation().get(), value)
}

fn invalid() -> Answer {
    Refused(6, "InvalidPtr")
}

fn completed(option: InvalidationOption<()>) -> Answer {
    match option {
        InvalidationOption::Success(()) => NOTHING,
        InvalidationOption::GenerationOverflow(()) => Overflow(0, 0, 0),
    }
}

fn removed(result: InvalidationResult<(Handle, u64)>) -> Answer {
    match result {
        InvalidationResult::Success((p, value)) => done(p, value),
        InvalidationResult::GenerationOverflow((p, value)) => overflow(p, value),
        InvalidationResult::InvalidPtr => invalid(),
    }
}

fn found(p: Option<Handle>) -> Answer {
    p.map_or(NOTHING, |p| done(p, 0))
}

/// `exhausted` is the number for `AllocError`.
fn reallocated(error: ReallocationError, exhausted: u8) -> Answer {
    match error {
        ReallocationError::BeyondMaxCapacity => Refused(9, "BeyondMaxCapacity"),
        ReallocationError::AllocError => Refused(exhausted, "AllocError"),
    }
}

/// The audit's verdict, from the Rust's words.
pub fn verdict(arena: &Messages) -> u64 {
    match Messages::_check_invariants(arena) {
        Ok(()) => 0,
        Err("bad generation") => 1,
        Err("len > capacity") => 2,
        Err("len != n_allocated") => 3,
        Err("bad freelist_root") => 4,
        Err("getting entry failed") => 6,
        Err("bad freelist node") => 7,
        Err("endless loop") => 8,
        Err("freelist discontinuous") => 9,
        Err(other) => panic!("{other}"),
    }
}

/// The chain places that the audit looks at, counted as its loop goes; the Rust does not count them.
fn looks(s: &Store, verdict: u64) -> usize {
    let m = s.header.m;
    let mut at = usize::from(s.header.root);
    if at == 0 || (1..=4).contains(&verdict) {
        return 0;
    }
    for n in 1.. {
        let ends = at > m || s.live(at) || usize::from(s.place(at).link) == at;
        if ends || n > m + 1 {
            return n;
        }
        at = usize::from(s.place(at).link);
    }
    unreachable!()
}

/// Every index is a live place: an advancer's first answer on it is the index that the advancer holds, which is private.
static EVERY_PLACE: LazyLock<Messages> = LazyLock::new(|| {
    let mut arena = Messages::with_min_capacity(65535).expect("there is room");
    while arena.insert_within_capacity(0).is_ok() {}
    arena
});

fn advancer(arena: &Messages, index: u16, rev: bool) -> PtrAdvancer<Handle> {
    match NonZeroU16::new(index) {
        Some(index) => arena.advancer_inx(index, rev),
        None => <PtrAdvancer<Handle> as Advancer<Messages>>::empty(),
    }
}

fn index_of(mut adv: PtrAdvancer<Handle>) -> u16 {
    adv.advance(&EVERY_PLACE).map_or(0, |p: Handle| p.inx().get())
}

/// A drain from the first message on is also made with the Rust's own iterator, on a copy: it must begin with the same.
fn begins_as_drain(s: &Store, index: u16, rev: bool, answer: &Answer) {
    let mut copy = s.loaded().expect("the store is held");
    if rev || copy.find_first_inx_ptr().map_or(0, |p| p.inx().get()) != index {
        return;
    }
    let first = copy.drain().next();
    let first = match first {
        None => NOTHING,
        Some(InvalidationOption::Success((p, value))) => done(p, value),
        Some(InvalidationOption::GenerationOverflow((p, value))) => overflow(p, value),
    };
    assert!(copy.is_empty(), "a drain that is dropped leaves nothing");
    assert!(first == *answer, "a drain begins otherwise than the Rust's own");
}

/// Advance, then remove; with no message it ends, which is a clear. Where document 01 `judges`, its refusal 4 comes before the removal.
fn drain(s: &mut Store, index: u16, rev: bool, judges: bool) -> Outcome {
    let arena = s.arena.as_mut().expect("the store is held");
    let mut adv = advancer(arena, index, rev);
    let p = adv.advance(arena);
    let cursor = Some((index_of(adv), rev));
    let Some(p) = p else {
        arena.clear().allow();
        if judges {
            begins_as_drain(s, index, rev, &NOTHING);
        }
        return Outcome { answer: NOTHING, looks: None, cursor };
    };
    if judges && paper::removal_unsound(s, p.inx().get()) {
        let answer = Refused(4, "");
        return Outcome { answer, looks: None, cursor: Some((index, rev)) };
    }
    let answer = removed(s.arena.as_mut().expect("it was there").remove(p).map(|value| (p, value)));
    if judges {
        begins_as_drain(s, index, rev, &answer);
    }
    Outcome { answer, looks: None, cursor }
}

fn handle(index: u64, generation: u64) -> Option<Handle> {
    let index = NonZeroU16::new(index as u16)?;
    let generation = NonZeroU32::new(generation as u32)?;
    Some(Handle::_from_raw(index, generation))
}

fn pair(p: Handle) -> (u16, u32) {
    (p.inx().get(), p.generation().get())
}

/// What the Rust cannot be handed.
const ZERO: Answer = Refused(3, "cannot be");

/// A call about one message.
fn on_message(line: &Line, arena: &mut Messages) -> Answer {
    let w = &line.words;
    let p = w.get(1).and_then(|&generation| handle(w[0], generation));
    match (line.code, p) {
        (InsertWithinCapacity, _) => match arena.insert_within_capacity(w[0]) {
            Ok(p) => done(p, w[0]),
            Err(_) => Refused(7, "NotWithinCapacityError"),
        },
        (InsertReallocating, _) => match arena.insert_reallocating(w[0]) {
            Ok(p) => done(p, w[0]),
            Err(error) => reallocated(error, 7),
        },
        (RemoveInx, _) => {
            let Some(index) = NonZeroU16::new(w[0] as u16) else { return ZERO };
            removed(arena.remove_inx(index).map(|(g, value)| (Handle::_from_raw(index, g), value)))
        }
        (_, None) => ZERO,
        (Remove, Some(p)) => removed(arena.remove(p).map(|value| (p, value))),
        (Invalidate, Some(p)) => removed(arena.invalidate(p).map(|p| (p, 0))),
        (Get, Some(p)) => arena.get(p).map_or(invalid(), |&value| done(p, value)),
        (_, Some(p)) => match arena.get_mut(p) {
            Some(value) => {
                *value = w[2];
                NOTHING
            }
            None => invalid(),
        },
    }
}

/// A call about a whole store.
fn on_store(line: &Line, arena: &mut Messages) -> Answer {
    let w = &line.words;
    match line.code {
        Clear => completed(arena.clear()),
        Order => {
            arena.canonicalize_freelist();
            NOTHING
        }
        Reserve => match arena.reallocate_min_capacity(w[0] as usize) {
            Ok(()) => NOTHING,
            Err(error) => reallocated(error, 8),
        },
        FindFirst => found(arena.find_first_inx_ptr()),
        FindLast => found(arena.find_last_inx_ptr()),
        SetGeneration => {
            let Some(generation) = NonZeroU32::new(w[0] as u32) else { return ZERO };
            arena.set_generation(generation);
            NOTHING
        }
        _ => completed(arena.inc_generation()),
    }
}

fn compress(line: &Line, s: &mut Store, journal: &mut Journal) -> Answer {
    let mut rows = journal.rows.iter_mut();
    let arena = s.arena.as_mut().expect("the store is held");
    let option = arena.compress_with(line.words[0] == 1, |old, _, new| {
        if let Some(row) = rows.next() {
            *row = Row { old: pair(old), new: pair(new), overflow: false };
        }
    });
    s.unload(Effect::Moves);
    completed(option)
}

/// Of a transfer or a copy: the destination was emptied, or is as its own reallocation left it.
fn into_destination(result: Result<(), ReallocationError>, s: &mut Store) -> Answer {
    match result {
        Ok(()) => {
            s.unload(Effect::Empties);
            NOTHING
        }
        Err(error) => {
            s.unload(Effect::Keeps);
            reallocated(error, 9)
        }
    }
}

fn transfer(line: &Line, s: &mut Store, source: &mut Store, journal: &mut Journal) -> Answer {
    let Some(generation) = NonZeroU32::new(line.words[0] as u32) else { return ZERO };
    let mut rows = journal.rows.iter_mut();
    let arena = s.arena.as_mut().expect("the store is held");
    let from = source.arena.as_mut().expect("the store is held");
    let result = arena.transfer_reallocating(generation, from, |old, message, new| {
        let overflow = message.is_overflow();
        if let Some(row) = rows.next() {
            *row = Row { old: pair(old), new: pair(new), overflow };
        }
        message.allow()
    });
    source.unload(Effect::Keeps);
    into_destination(result, s)
}

fn copy(s: &mut Store, source: &Store) -> Answer {
    let arena = s.arena.as_mut().expect("the store is held");
    let from = source.arena.as_ref().expect("the store is held");
    let result = arena.clone_from_with(from, |_, &value: &u64| value);
    into_destination(result, s)
}

/// The Rust's call for a line. Stores are held by arenas; `s` is the store, for transfer and copy the destination.
pub fn call(line: &Line, s: &mut Store, source: &mut Store, journal: &mut Journal, judges: bool) -> Outcome {
    let w = &line.words;
    match line.code {
        Compress => return compress(line, s, journal).into(),
        Transfer => return transfer(line, s, source, journal).into(),
        CopyFrom => return copy(s, source).into(),
        _ => {}
    }
    let arena = s.arena.as_mut().expect("the store is held");
    let outcome = match line.code {
        Audit => {
            let verdict = verdict(arena);
            Outcome { answer: Done(0, 0, verdict), looks: Some(looks(s, verdict)), cursor: None }
        }
        Advance => {
            let rev = w[1] != 0;
            let mut adv = advancer(arena, w[0] as u16, rev);
            let answer = found(adv.advance(arena));
            Outcome { answer, looks: None, cursor: Some((index_of(adv), rev)) }
        }
        Drain => drain(s, w[0] as u16, w[1] != 0, judges),
        InsertWithinCapacity | InsertReallocating | Remove | RemoveInx | Invalidate | Get | Put => {
            on_message(line, arena).into()
        }
        _ => on_store(line, arena).into(),
    };
    s.unload(Effect::Keeps);
    outcome
}
