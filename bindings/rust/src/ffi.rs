//! Each exported function behind a safe one: the only module with unsafe code.
//!
//! The library is proved for any content of what it is lent. What it asks of a caller besides, slices keep: a pointer that is aligned and never null
//! (also of an empty slice), a count that is the slice's own, no overlap between what is lent to be changed and anything else, and a `bool` that is
//! 0 or 1.
use std::mem::offset_of;

use crate::data::{Answer, Checked, Cursor, Header, Ptr, Refusal, Row, State, StepAnswer, Tables, Tally, View};

/// An answer as the library gives it.
#[repr(C)]
struct Flat {
    value: u64,
    kind: u8,
    refusal: u8,
    index: u16,
    generation: u32,
}

#[repr(C)]
struct Compressed {
    answer: Flat,
    header: Header,
}

#[repr(C)]
struct Transferred {
    answer: Flat,
    destination: Header,
    source: Header,
}

/// A header that is passed by value. The two bytes between its counts and its generation are zero, not whatever was there: nothing depends on them,
/// but the library carries them along with the words beside them, and valgrind cannot tell.
#[repr(C)]
struct Passed {
    counts: [u16; 4],
    generation: u32,
}

impl Passed {
    #[inline]
    fn of(header: &Header) -> Self {
        Self { counts: [header.len, header.m, header.root, 0], generation: header.generation }
    }
}

const _: () = {
    assert!(size_of::<Flat>() == 16 && offset_of!(Flat, kind) == 8 && offset_of!(Flat, refusal) == 9);
    assert!(offset_of!(Flat, index) == 10 && offset_of!(Flat, generation) == 12);
    assert!(size_of::<Compressed>() == 32 && offset_of!(Compressed, header) == 16);
    assert!(size_of::<Transferred>() == 40 && offset_of!(Transferred, destination) == 16);
    assert!(offset_of!(Transferred, source) == 28);
    assert!(
        size_of::<Passed>() == size_of::<Header>() && offset_of!(Passed, generation) == offset_of!(Header, generation)
    );
};

/// The exported functions: their first arguments, then whether each of the three tables is changed (`mut`) or only read (`const`), then their last
/// arguments. A table is two arguments, pointer and count.
macro_rules! library {
    ($(fn $name:ident($($first:ty),*; $($g:tt $l:tt $v:tt),*; $($last:ty),*) $(-> $answer:ty)?;)*) => {
        unsafe extern "C" {
            $(fn $name(
                $(_: $first,)* $(_: *$g u32, _: usize, _: *$l u16, _: usize, _: *$v u64, _: usize,)* $(_: $last,)*
            ) $(-> $answer)?;)*
        }
    };
}

library! {
    fn nektawul_new(*mut u16, *mut u32; mut mut mut;);
    fn nektawul_insert_within_capacity(u64, *mut u16, *mut u32; mut mut mut;) -> Flat;
    fn nektawul_insert_reallocating(u64, *mut u16, *mut u32; mut mut mut;) -> Flat;
    fn nektawul_remove(u16, u32, *mut u16, *mut u32; mut mut mut;) -> Flat;
    fn nektawul_remove_inx(u16, *mut u16, *mut u32; mut mut mut;) -> Flat;
    fn nektawul_invalidate(u16, u32, *mut u16, *mut u32; mut const const;) -> Flat;
    fn nektawul_get(u16, u32, *const u16, u32; const const const;) -> Flat;
    fn nektawul_put(u64, u16, u32, *const u16, u32; const const mut;) -> Flat;
    fn nektawul_clear(*mut u16, *mut u32; mut mut mut;) -> Flat;
    fn nektawul_canonicalize_freelist(*mut u16, *mut u32; const mut mut;) -> Flat;
    fn nektawul_reallocate_min_capacity(usize, *mut u16, *mut u32; const mut mut;) -> Flat;
    fn nektawul_set_generation(u32, *mut u16, *mut u32; const const const;) -> Flat;
    fn nektawul_inc_generation(*mut u16, *mut u32; const const const;) -> Flat;
    fn nektawul_check_invariants(*mut u16, *const u16, u32; const const const;) -> Flat;
    fn nektawul_find_first_inx_ptr(*const u16, u32; const const const;) -> Flat;
    fn nektawul_find_last_inx_ptr(*const u16, u32; const const const;) -> Flat;
    fn nektawul_advance(*mut u16, *mut bool, *const u16, u32; const const const;) -> Flat;
    fn nektawul_drain(*mut u16, *mut bool, *mut u16, *mut u32; mut mut mut;) -> Flat;
    fn nektawul_clone_from_with(*mut u16, *mut u32, *const u16, u32; mut mut mut, const const const;) -> Flat;
    fn nektawul_compress_with(Passed, bool; mut mut mut; *mut Row, usize) -> Compressed;
    fn nektawul_transfer_reallocating(Passed, Passed, u32; mut mut mut, mut mut mut; *mut Row, usize) -> Transferred;
    fn nektawul_check(u16, *const u8, usize; const const const;) -> Checked;
    fn nektawul_step(*mut State, *const u8, usize; mut mut mut; *mut Row, usize) -> Flat;
    fn nektawul_run(*mut State, *mut Checked, *mut [u32; 3], *const u8, usize; mut mut mut; *mut Row, usize);
}

unsafe extern "C" {
    fn nektawul_lent_places(_: *const u8, _: usize) -> usize;
}

macro_rules! pointer {
    (mut $slice:expr) => {
        $slice.as_mut_ptr()
    };
    (const $slice:expr) => {
        $slice.as_ptr()
    };
}

/// Calls an exported function: its first arguments, the tables that it is lent, its last arguments.
macro_rules! call {
    ($name:ident($($first:expr),*; $($kind:tt $tables:ident),*; $($last:expr),*)) => {
        // SAFETY: each pointer is that of a reference or slice that outlasts the call, each count is its slice's, and what the call may
        // change is borrowed by `&mut`, so that nothing else overlaps it.
        unsafe {
            $name(
                $($first,)*
                $(
                    pointer!($kind $tables.generations), $tables.generations.len(),
                    pointer!($kind $tables.links), $tables.links.len(),
                    pointer!($kind $tables.values), $tables.values.len(),
                )*
                $($last,)*
            )
        }
    };
}

/// The header's three counts and its generation, to be changed.
#[inline]
fn words(header: &mut Header) -> (*mut u16, *mut u32) {
    let header = &raw mut *header;
    // SAFETY: it is the pointer of a reference. The counts are the first three fields.
    (header.cast(), unsafe { &raw mut (*header).generation })
}

/// The header's three counts, to be read.
#[inline]
fn counts(header: &Header) -> *const u16 {
    (&raw const *header).cast()
}

/// The refusal of a number that the library gave.
#[inline]
pub(crate) fn refusal(number: u8) -> Refusal {
    Refusal::of(number).expect("the library gives the numbers 1 to 13")
}

impl Flat {
    #[inline]
    fn answer(self) -> Answer {
        let p = Ptr::new(self.index, self.generation);
        match self.kind {
            0 => Answer::Done(p, self.value),
            1 => Answer::Overflow(p, self.value),
            2 => Answer::Refused(refusal(self.refusal)),
            _ => unreachable!("the library gives a call the kinds 0 to 2"),
        }
    }

    #[inline]
    fn step_answer(self) -> StepAnswer {
        match self.kind {
            3 => StepAnswer::End,
            4 => StepAnswer::TurnedDown(refusal(self.refusal), self.index),
            _ => StepAnswer::Ran(self.answer()),
        }
    }
}

/// Lays out a new store: every word 0, generation 2.
#[inline]
pub fn new(header: &mut Header, tables: &mut Tables<'_>) {
    let (counts, current) = words(header);
    call!(nektawul_new(counts, current; mut tables;));
}

/// Puts a message at the root place, or else at place m + 1; the answer has its handle.
#[inline]
pub fn insert_within_capacity(value: u64, header: &mut Header, tables: &mut Tables<'_>) -> Answer {
    let (counts, current) = words(header);
    call!(nektawul_insert_within_capacity(value, counts, current; mut tables;)).answer()
}

/// The same, but a full store is refused by 9.
#[inline]
pub fn insert_reallocating(value: u64, header: &mut Header, tables: &mut Tables<'_>) -> Answer {
    let (counts, current) = words(header);
    call!(nektawul_insert_reallocating(value, counts, current; mut tables;)).answer()
}

/// Withdraws the message of a handle; the generation steps.
#[inline]
pub fn remove(p: Ptr, header: &mut Header, tables: &mut Tables<'_>) -> Answer {
    let (counts, current) = words(header);
    call!(nektawul_remove(p.index, p.generation, counts, current; mut tables;)).answer()
}

/// Withdraws the message at an index, whatever its generation.
#[inline]
pub fn remove_inx(index: u16, header: &mut Header, tables: &mut Tables<'_>) -> Answer {
    let (counts, current) = words(header);
    call!(nektawul_remove_inx(index, counts, current; mut tables;)).answer()
}

/// Gives a message a new handle, so that the one given shows nothing any more.
#[inline]
pub fn invalidate(p: Ptr, header: &mut Header, tables: &mut Tables<'_>) -> Answer {
    let (counts, current) = words(header);
    call!(nektawul_invalidate(p.index, p.generation, counts, current; mut tables;)).answer()
}

/// Shows the message of a handle.
#[inline]
pub fn get(p: Ptr, header: &Header, tables: View<'_>) -> Answer {
    call!(nektawul_get(p.index, p.generation, counts(header), header.generation; const tables;)).answer()
}

/// Stores another value under a handle.
#[inline]
pub fn put(value: u64, p: Ptr, header: &Header, tables: &mut Tables<'_>) -> Answer {
    call!(nektawul_put(value, p.index, p.generation, counts(header), header.generation; mut tables;)).answer()
}

/// Withdraws all messages.
#[inline]
pub fn clear(header: &mut Header, tables: &mut Tables<'_>) -> Answer {
    let (counts, current) = words(header);
    call!(nektawul_clear(counts, current; mut tables;)).answer()
}

/// Orders the free chain.
#[inline]
pub fn canonicalize_freelist(header: &mut Header, tables: &mut Tables<'_>) -> Answer {
    let (counts, current) = words(header);
    call!(nektawul_canonicalize_freelist(counts, current; mut tables;)).answer()
}

/// Orders the free chain, and then says whether the store has so many places.
#[inline]
pub fn reallocate_min_capacity(places: usize, header: &mut Header, tables: &mut Tables<'_>) -> Answer {
    let (counts, current) = words(header);
    call!(nektawul_reallocate_min_capacity(places, counts, current; mut tables;)).answer()
}

/// Sets the current generation.
#[inline]
pub fn set_generation(generation: u32, header: &mut Header, tables: View<'_>) -> Answer {
    let (counts, current) = words(header);
    call!(nektawul_set_generation(generation, counts, current; const tables;)).answer()
}

/// Steps the current generation.
#[inline]
pub fn inc_generation(header: &mut Header, tables: View<'_>) -> Answer {
    let (counts, current) = words(header);
    call!(nektawul_inc_generation(counts, current; const tables;)).answer()
}

/// Audits the store: the verdict is the answer's value. Beside it the number of chain places looked at.
#[inline]
pub fn check_invariants(header: &Header, tables: View<'_>) -> (Answer, u16) {
    let mut looks = 0;
    let answer =
        call!(nektawul_check_invariants(&raw mut looks, counts(header), header.generation; const tables;)).answer();
    (answer, looks)
}

/// The handle of the lowest message, or none (index 0).
#[inline]
pub fn find_first_inx_ptr(header: &Header, tables: View<'_>) -> Answer {
    call!(nektawul_find_first_inx_ptr(counts(header), header.generation; const tables;)).answer()
}

/// The handle of the highest message, or none (index 0).
#[inline]
pub fn find_last_inx_ptr(header: &Header, tables: View<'_>) -> Answer {
    call!(nektawul_find_last_inx_ptr(counts(header), header.generation; const tables;)).answer()
}

/// Moves the cursor on to the next message and shows its handle, or none (index 0) at the end.
#[inline]
pub fn advance(cursor: &mut Cursor, header: &Header, tables: View<'_>) -> Answer {
    let (next, rev) = (&raw mut cursor.index, &raw mut cursor.rev);
    call!(nektawul_advance(next, rev, counts(header), header.generation; const tables;)).answer()
}

/// Moves the cursor on to the next message and withdraws it; at the end (no handle) all are withdrawn.
#[inline]
pub fn drain(cursor: &mut Cursor, header: &mut Header, tables: &mut Tables<'_>) -> Answer {
    let (next, rev) = (&raw mut cursor.index, &raw mut cursor.rev);
    let (counts, current) = words(header);
    call!(nektawul_drain(next, rev, counts, current; mut tables;)).answer()
}

/// Makes the destination a copy of the source, at the same places and with the same handles.
#[inline]
pub fn clone_from_with(d: &mut Header, destination: &mut Tables<'_>, s: &Header, source: View<'_>) -> Answer {
    let (dcounts, dcurrent) = words(d);
    call!(nektawul_clone_from_with(dcounts, dcurrent, counts(s), s.generation; mut destination, const source;)).answer()
}

/// Moves the messages down to the lowest places and writes a row for each; `reset` sets generation 2.
#[inline]
pub fn compress_with(reset: bool, header: &mut Header, tables: &mut Tables<'_>, rows: &mut [Row]) -> Answer {
    let done = call!(nektawul_compress_with(Passed::of(header), reset; mut tables; rows.as_mut_ptr(), rows.len()));
    *header = done.header;
    done.answer.answer()
}

/// Moves the messages of the source into the cleared destination, with the generation given, and writes a row for each.
#[inline]
pub fn transfer_reallocating(
    generation: u32,
    d: &mut Header,
    destination: &mut Tables<'_>,
    s: &mut Header,
    source: &mut Tables<'_>,
    rows: &mut [Row],
) -> Answer {
    let (journal, count) = (rows.as_mut_ptr(), rows.len());
    let (dh, sh) = (Passed::of(d), Passed::of(s));
    let done = call!(nektawul_transfer_reallocating(dh, sh, generation; mut destination, mut source; journal, count));
    (*d, *s) = (done.destination, done.source);
    done.answer.answer()
}

/// Checks a sequence file, and that `next` is a number of a command or the one after the last.
#[inline]
pub fn check(next: u16, file: &[u8], tables: View<'_>) -> Checked {
    call!(nektawul_check(next, file.as_ptr(), file.len(); const tables;))
}

/// How many places to lend to a sequence file: its own number, or 1,024 where that is larger or not there.
#[inline]
pub fn lent_places(file: &[u8]) -> usize {
    // SAFETY: it is a slice's pointer and count.
    unsafe { nektawul_lent_places(file.as_ptr(), file.len()) }
}

/// Performs the state's next command.
#[inline]
pub fn step(state: &mut State, file: &[u8], tables: &mut Tables<'_>, rows: &mut [Row]) -> StepAnswer {
    call!(nektawul_step(&raw mut *state, file.as_ptr(), file.len(); mut tables; rows.as_mut_ptr(), rows.len()))
        .step_answer()
}

/// Performs every command from the state's next on: what the check gave, and the counts.
#[inline]
pub fn run(state: &mut State, file: &[u8], tables: &mut Tables<'_>, rows: &mut [Row]) -> (Checked, Tally) {
    let mut checked = Checked::default();
    let mut tally = Tally::default();
    let (q, c, t) = (&raw mut *state, &raw mut checked, tally.as_mut_ptr());
    call!(nektawul_run(q, c, t, file.as_ptr(), file.len(); mut tables; rows.as_mut_ptr(), rows.len()));
    (checked, tally)
}
