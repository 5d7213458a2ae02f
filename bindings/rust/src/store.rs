//! A store that keeps its header beside the lent tables. Each method is one call of the library.
use std::{error::Error, fmt, iter::FusedIterator};

use crate::{
    data::{Answer, Checked, Cursor, Header, Ptr, Refusal, Row, State, StepAnswer, Tables, Tally, View},
    ffi::refusal,
    raw,
};

/// What a call gave whose generation step may overflow. After an overflow the generations start again at 2, so that a handle given out long
/// before may show a newer message: whoever keeps handles drops them.
#[must_use]
#[derive(Clone, Copy, PartialEq, Eq, Hash, Debug)]
pub enum Stepped<T> {
    Done(T),
    Overflow(T),
}

impl<T> Stepped<T> {
    pub fn is_overflow(&self) -> bool {
        matches!(self, Self::Overflow(_))
    }

    /// What the call gave, overflow or not.
    pub fn allow(self) -> T {
        match self {
            Self::Done(given) | Self::Overflow(given) => given,
        }
    }

    fn map<U>(self, f: impl FnOnce(T) -> U) -> Stepped<U> {
        match self {
            Self::Done(given) => Stepped::Done(f(given)),
            Self::Overflow(given) => Stepped::Overflow(f(given)),
        }
    }
}

/// What an audit found: 0 is sound, and document 01 lists the others (1 to 9). `looks` counts the places of the free chain that it
/// looked at; proved of it is that it is at most the stack length + 2.
#[derive(Clone, Copy, PartialEq, Eq, Hash, Debug)]
pub struct Audit {
    pub verdict: u8,
    pub looks: u16,
}

/// Why a sequence was turned down: 1 or 10 to 13, and the number of the command at fault (0 where none is).
#[derive(Clone, Copy, PartialEq, Eq, Hash, Debug)]
pub struct TurnedDown {
    pub refusal: Refusal,
    pub fault: u16,
}

impl fmt::Display for TurnedDown {
    fn fmt(&self, f: &mut fmt::Formatter<'_>) -> fmt::Result {
        match self.fault {
            0 => self.refusal.fmt(f),
            fault => write!(f, "{}: command {fault}", self.refusal),
        }
    }
}

impl Error for TurnedDown {}

/// An answer as a result: the handle and the value that it shows.
#[inline]
fn shown(answer: Answer) -> Result<Stepped<(Ptr, u64)>, Refusal> {
    match answer {
        Answer::Done(p, value) => Ok(Stepped::Done((p, value))),
        Answer::Overflow(p, value) => Ok(Stepped::Overflow((p, value))),
        Answer::Refused(refusal) => Err(refusal),
    }
}

/// The same of a call that shows nothing.
#[inline]
fn finished(answer: Answer) -> Result<Stepped<()>, Refusal> {
    Ok(shown(answer)?.map(|_| ()))
}

/// The same of a call that never answers overflow.
#[inline]
fn done(answer: Answer) -> Result<(), Refusal> {
    shown(answer).map(|_| ())
}

/// A handle that may be none.
#[inline]
fn found(p: Ptr) -> Option<Ptr> {
    (p.index != 0).then_some(p)
}

/// The handle that advance or a find shows.
#[inline]
fn sought(answer: Answer) -> Result<Option<Ptr>, Refusal> {
    Ok(found(shown(answer)?.allow().0))
}

/// A store over three lent tables: any tables and any header, since the library refuses what is unfit.
///
/// ```
/// use nektawul::{Ptr, Refusal, Store};
///
/// let (mut generations, mut links, mut values) = ([0; 2], [0; 2], [0; 2]);
/// let mut store = Store::new(&mut generations, &mut links, &mut values);
/// let oil = store.insert(10)?;
/// let fuel = store.insert(20)?;
/// assert_eq!(store.insert(30), Err(Refusal::NotWithinCapacity));
/// assert_eq!(store.get(oil), Ok(10));
///
/// store.remove(oil)?.allow();
/// let newer = store.insert(40)?; // at the same place
/// assert_eq!(newer, Ptr::new(oil.index, 3));
/// assert_eq!(store.get(oil), Err(Refusal::InvalidPtr));
/// assert_eq!(store.get(fuel), Ok(20));
/// # Ok::<(), Refusal>(())
/// ```
#[derive(PartialEq, Eq, Debug)]
pub struct Store<'a> {
    header: Header,
    tables: Tables<'a>,
}

impl<'a> Store<'a> {
    /// Lays the tables out as a new store. Their length is its number of places. Unequal tables, or tables of more than 1,024 entries, are
    /// zeroed too, and every call then refuses them.
    pub fn new(generations: &'a mut [u32], links: &'a mut [u16], values: &'a mut [u64]) -> Self {
        let mut store = Self::of(Header::default(), Tables { generations, links, values });
        raw::new(&mut store.header, &mut store.tables);
        store
    }

    /// A store of a header and tables as they stand.
    pub fn of(header: Header, tables: Tables<'a>) -> Self {
        Self { header, tables }
    }

    pub fn into_parts(self) -> (Header, Tables<'a>) {
        (self.header, self.tables)
    }

    pub fn header(&self) -> Header {
        self.header
    }

    pub fn tables(&self) -> View<'_> {
        self.tables.view()
    }

    /// The number of messages.
    pub fn len(&self) -> usize {
        self.header.len.into()
    }

    pub fn is_empty(&self) -> bool {
        self.header.len == 0
    }

    /// The number of places.
    pub fn capacity(&self) -> usize {
        self.tables.generations.len()
    }

    /// The current generation, which the next message's handle carries.
    pub fn generation(&self) -> u32 {
        self.header.generation
    }

    /// Puts a message in, as [`insert_within_capacity`](Self::insert_within_capacity).
    #[inline]
    pub fn insert(&mut self, value: u64) -> Result<Ptr, Refusal> {
        self.insert_within_capacity(value)
    }

    /// Puts a message in and gives its handle. A full store is refused by 7.
    #[inline]
    pub fn insert_within_capacity(&mut self, value: u64) -> Result<Ptr, Refusal> {
        Ok(shown(raw::insert_within_capacity(value, &mut self.header, &mut self.tables))?.allow().0)
    }

    /// Puts a message in and gives its handle. A full store is refused by 9.
    #[inline]
    pub fn insert_reallocating(&mut self, value: u64) -> Result<Ptr, Refusal> {
        Ok(shown(raw::insert_reallocating(value, &mut self.header, &mut self.tables))?.allow().0)
    }

    /// Withdraws the message of a handle and gives it.
    #[inline]
    pub fn remove(&mut self, p: Ptr) -> Result<Stepped<u64>, Refusal> {
        Ok(shown(raw::remove(p, &mut self.header, &mut self.tables))?.map(|(_, value)| value))
    }

    /// Withdraws the message at an index and gives it with its handle.
    #[inline]
    pub fn remove_inx(&mut self, index: u16) -> Result<Stepped<(Ptr, u64)>, Refusal> {
        shown(raw::remove_inx(index, &mut self.header, &mut self.tables))
    }

    /// Gives a message a new handle; the one given shows nothing any more.
    #[inline]
    pub fn invalidate(&mut self, p: Ptr) -> Result<Stepped<Ptr>, Refusal> {
        Ok(shown(raw::invalidate(p, &mut self.header, &mut self.tables))?.map(|(p, _)| p))
    }

    /// Shows the message of a handle.
    #[inline]
    pub fn get(&self, p: Ptr) -> Result<u64, Refusal> {
        Ok(shown(raw::get(p, &self.header, self.tables.view()))?.allow().1)
    }

    /// Stores another message under a handle.
    #[inline]
    pub fn put(&mut self, p: Ptr, value: u64) -> Result<(), Refusal> {
        done(raw::put(value, p, &self.header, &mut self.tables))
    }

    /// Withdraws all messages.
    pub fn clear(&mut self) -> Result<Stepped<()>, Refusal> {
        finished(raw::clear(&mut self.header, &mut self.tables))
    }

    /// Orders the free chain: the lowest free place is taken next.
    pub fn canonicalize_freelist(&mut self) -> Result<(), Refusal> {
        done(raw::canonicalize_freelist(&mut self.header, &mut self.tables))
    }

    /// Orders the free chain, and then refuses more places than there are by 9, and more than 65,535 by 8.
    pub fn reallocate_min_capacity(&mut self, places: usize) -> Result<(), Refusal> {
        done(raw::reallocate_min_capacity(places, &mut self.header, &mut self.tables))
    }

    /// Sets the current generation. Set below the current one, handles may be given out twice.
    pub fn set_generation(&mut self, generation: u32) -> Result<(), Refusal> {
        done(raw::set_generation(generation, &mut self.header, self.tables.view()))
    }

    /// Steps the current generation.
    pub fn inc_generation(&mut self) -> Result<Stepped<()>, Refusal> {
        finished(raw::inc_generation(&mut self.header, self.tables.view()))
    }

    /// Audits the store, as [`check_invariants`](raw::check_invariants).
    pub fn audit(&self) -> Result<Audit, Refusal> {
        let (answer, looks) = raw::check_invariants(&self.header, self.tables.view());
        let (_, verdict) = shown(answer)?.allow();
        Ok(Audit { verdict: verdict as u8, looks })
    }

    /// The handle of the lowest message.
    pub fn find_first_inx_ptr(&self) -> Result<Option<Ptr>, Refusal> {
        sought(raw::find_first_inx_ptr(&self.header, self.tables.view()))
    }

    /// The handle of the highest message.
    pub fn find_last_inx_ptr(&self) -> Result<Option<Ptr>, Refusal> {
        sought(raw::find_last_inx_ptr(&self.header, self.tables.view()))
    }

    /// Moves a cursor on to the next message and gives its handle. Between two calls the store may be changed.
    #[inline]
    pub fn advance(&self, cursor: &mut Cursor) -> Result<Option<Ptr>, Refusal> {
        sought(raw::advance(cursor, &self.header, self.tables.view()))
    }

    /// The handles of all messages, ascending. A refusal is the last item.
    pub fn advancer(&self) -> Advancer<'_, 'a> {
        self.advancer_at(Cursor::up_from(1))
    }

    /// The handles from a cursor on.
    pub fn advancer_at(&self, cursor: Cursor) -> Advancer<'_, 'a> {
        Advancer { store: self, cursor, ended: false }
    }

    /// Moves a cursor on to the next message and withdraws it. At the end all messages are withdrawn.
    pub fn drain_at(&mut self, cursor: &mut Cursor) -> Result<Option<Stepped<(Ptr, u64)>>, Refusal> {
        let given = shown(raw::drain(cursor, &mut self.header, &mut self.tables))?;
        Ok(found(given.allow().0).map(|_| given))
    }

    /// Withdraws all messages, one an item, ascending. Those that are left are withdrawn when it is dropped. A refusal is the last item.
    pub fn drain(&mut self) -> Drain<'_, 'a> {
        Drain { store: self, cursor: Cursor::up_from(1), ended: false }
    }

    /// Makes this store a copy of another, at the same places and with the same handles. 9 leaves this store ordered.
    pub fn clone_from_with(&mut self, source: &Store<'_>) -> Result<(), Refusal> {
        done(raw::clone_from_with(&mut self.header, &mut self.tables, &source.header, source.tables.view()))
    }

    /// Moves the messages down to the lowest places, and gives the rows of the journal that it wrote, the first ones of those lent. With
    /// `reset` the generation becomes 2, and handles given out before may come again.
    pub fn compress_with<'r>(&mut self, reset: bool, rows: &'r mut [Row]) -> Result<Stepped<&'r [Row]>, Refusal> {
        let moved = self.len();
        let given = finished(raw::compress_with(reset, &mut self.header, &mut self.tables, rows))?;
        Ok(given.map(|()| &rows[..moved]))
    }

    /// Clears this store, moves all messages of the source into it with the generation given, and gives the rows that it wrote. An overflow of
    /// the source's generation stands only in the rows. 9 leaves this store ordered.
    pub fn transfer_reallocating<'r>(
        &mut self,
        generation: u32,
        source: &mut Store<'_>,
        rows: &'r mut [Row],
    ) -> Result<&'r [Row], Refusal> {
        let moved = source.len();
        let (d, s) = (&mut self.header, &mut source.header);
        done(raw::transfer_reallocating(generation, d, &mut self.tables, s, &mut source.tables, rows))?;
        Ok(&rows[..moved])
    }

    /// Checks a sequence file, and that command `next` can come next.
    pub fn check(&self, next: u16, file: &[u8]) -> Result<(), TurnedDown> {
        accepted(raw::check(next, file, self.tables.view()))
    }

    /// Performs command `next` of a sequence and moves `next` on.
    pub fn step(&mut self, next: &mut u16, file: &[u8], rows: &mut [Row]) -> StepAnswer {
        self.with_state(next, |state, tables| raw::step(state, file, tables, rows))
    }

    /// Performs all commands of a sequence from `next` on and counts their answers.
    pub fn run(&mut self, next: &mut u16, file: &[u8], rows: &mut [Row]) -> Result<Tally, TurnedDown> {
        let (checked, tally) = self.with_state(next, |state, tables| raw::run(state, file, tables, rows));
        accepted(checked)?;
        Ok(tally)
    }

    /// Lends a sequence's state, which has the header in it, and takes the header back.
    fn with_state<T>(&mut self, next: &mut u16, call: impl FnOnce(&mut State, &mut Tables<'a>) -> T) -> T {
        let mut state = State { next: *next, header: self.header };
        let given = call(&mut state, &mut self.tables);
        (*next, self.header) = (state.next, state.header);
        given
    }
}

/// What a check gave, as a result.
fn accepted(checked: Checked) -> Result<(), TurnedDown> {
    match checked.refusal {
        0 => Ok(()),
        number => Err(TurnedDown { refusal: refusal(number), fault: checked.fault }),
    }
}

/// The handles of a store's messages.
#[must_use]
pub struct Advancer<'s, 'a> {
    store: &'s Store<'a>,
    cursor: Cursor,
    ended: bool,
}

impl Iterator for Advancer<'_, '_> {
    type Item = Result<Ptr, Refusal>;

    #[inline]
    fn next(&mut self) -> Option<Self::Item> {
        until_end(&mut self.ended, || self.store.advance(&mut self.cursor))
    }
}

impl FusedIterator for Advancer<'_, '_> {}

/// Withdraws a store's messages. Those that are left when it is dropped are withdrawn then.
#[must_use]
pub struct Drain<'s, 'a> {
    store: &'s mut Store<'a>,
    cursor: Cursor,
    ended: bool,
}

impl Iterator for Drain<'_, '_> {
    type Item = Result<Stepped<(Ptr, u64)>, Refusal>;

    #[inline]
    fn next(&mut self) -> Option<Self::Item> {
        until_end(&mut self.ended, || self.store.drain_at(&mut self.cursor))
    }
}

impl FusedIterator for Drain<'_, '_> {}

impl Drop for Drain<'_, '_> {
    fn drop(&mut self) {
        // With a spent cursor a drain is at its end. A store that refuses it has refused every item too.
        until_end(&mut self.ended, || self.store.drain_at(&mut { Cursor::SPENT }));
    }
}

/// An iterator's next item: none after the end or a refusal, since a refused cursor comes back as given and would be refused for ever.
#[inline]
fn until_end<T>(ended: &mut bool, call: impl FnOnce() -> Result<Option<T>, Refusal>) -> Option<Result<T, Refusal>> {
    if *ended {
        return None;
    }
    let item = call().transpose();
    *ended = !matches!(item, Some(Ok(_)));
    item
}
