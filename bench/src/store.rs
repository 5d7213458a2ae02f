//! The stores that are measured, each behind the same calls: this library, triple_arena and slotmap.
use std::{
    hint::black_box,
    num::{NonZeroU16, NonZeroU32},
};

use nektawul::{Row, Stepped, Store};
use slotmap::{DefaultKey, Key, SlotMap};
use triple_arena::{
    Arena, FixedHeapBacking, InvalidationOption, InvalidationResult, ptr_struct,
    traits::{Advancer, ArenaCloneFromWith, ArenaInsertTrait, ArenaTrait, Ptr},
};

/// The calls that all three have. None is a refusal.
pub trait Messages {
    type Handle: Copy;

    fn new(places: usize) -> Self;
    fn insert(&mut self, value: u64) -> Option<Self::Handle>;
    fn remove(&mut self, p: Self::Handle) -> Option<u64>;
    fn get(&self, p: Self::Handle) -> Option<u64>;
    fn put(&mut self, p: Self::Handle, value: u64) -> bool;
    fn clear(&mut self);
    /// The indices of the messages, ascending.
    fn walk(&self) -> impl Iterator<Item = u64>;
    /// The values of the messages, each withdrawn as it is shown; at the end the store is cleared.
    fn drain(&mut self) -> impl Iterator<Item = u64>;

    fn index(p: Self::Handle) -> u64;
}

/// The further calls of `Arena`.
pub trait Places: Messages {
    fn invalidate(&mut self, p: Self::Handle) -> Option<Self::Handle>;
    fn remove_inx(&mut self, index: u16) -> Option<u64>;
    fn order(&mut self);
    fn compress(&mut self, reset: bool, rows: &mut [Row]) -> bool;
    /// The verdict.
    fn audit(&self) -> u64;
    fn set_generation(&mut self, generation: u32) -> bool;
    fn copy_from(&mut self, source: &Self) -> bool;
    fn transfer_from(&mut self, source: &mut Self, rows: &mut [Row]) -> bool;

    /// As it was made.
    #[inline(always)]
    fn renew(&mut self) {
        self.clear();
        self.set_generation(2);
    }

    fn root(&self) -> u64;
    fn len(&self) -> u64;
    fn handle(index: u16, generation: u32) -> Option<Self::Handle>;
    fn generation(p: Self::Handle) -> u64;
}

/// This library, through the C boundary.
pub struct Library(pub Store<'static>);

fn lent<T: Clone + Default>(places: usize) -> &'static mut [T] {
    vec![T::default(); places].leak()
}

impl Messages for Library {
    type Handle = nektawul::Ptr;

    fn new(places: usize) -> Self {
        Self(Store::new(lent(places), lent(places), lent(places)))
    }

    #[inline(always)]
    fn insert(&mut self, value: u64) -> Option<Self::Handle> {
        self.0.insert(value).ok()
    }

    #[inline(always)]
    fn remove(&mut self, p: Self::Handle) -> Option<u64> {
        self.0.remove(p).ok().map(Stepped::allow)
    }

    #[inline(always)]
    fn get(&self, p: Self::Handle) -> Option<u64> {
        self.0.get(p).ok()
    }

    #[inline(always)]
    fn put(&mut self, p: Self::Handle, value: u64) -> bool {
        self.0.put(p, value).is_ok()
    }

    #[inline(always)]
    fn clear(&mut self) {
        let _ = self.0.clear();
    }

    #[inline(always)]
    fn walk(&self) -> impl Iterator<Item = u64> {
        self.0.advancer().map_while(Result::ok).map(Self::index)
    }

    #[inline(always)]
    fn drain(&mut self) -> impl Iterator<Item = u64> {
        self.0.drain().map_while(Result::ok).map(|drained| drained.allow().1)
    }

    #[inline(always)]
    fn index(p: Self::Handle) -> u64 {
        p.index.into()
    }
}

impl Places for Library {
    #[inline(always)]
    fn invalidate(&mut self, p: Self::Handle) -> Option<Self::Handle> {
        self.0.invalidate(p).ok().map(Stepped::allow)
    }

    #[inline(always)]
    fn remove_inx(&mut self, index: u16) -> Option<u64> {
        self.0.remove_inx(index).ok().map(|taken| taken.allow().1)
    }

    #[inline(always)]
    fn order(&mut self) {
        let _ = self.0.canonicalize_freelist();
    }

    #[inline(always)]
    fn compress(&mut self, reset: bool, rows: &mut [Row]) -> bool {
        self.0.compress_with(reset, rows).is_ok()
    }

    #[inline(always)]
    fn audit(&self) -> u64 {
        self.0.audit().map_or(u64::MAX, |audit| audit.verdict.into())
    }

    #[inline(always)]
    fn set_generation(&mut self, generation: u32) -> bool {
        self.0.set_generation(generation).is_ok()
    }

    #[inline(always)]
    fn copy_from(&mut self, source: &Self) -> bool {
        self.0.clone_from_with(&source.0).is_ok()
    }

    #[inline(always)]
    fn transfer_from(&mut self, source: &mut Self, rows: &mut [Row]) -> bool {
        self.0.transfer_reallocating(2, &mut source.0, rows).is_ok()
    }

    fn root(&self) -> u64 {
        self.0.header().root.into()
    }

    fn len(&self) -> u64 {
        self.0.header().len.into()
    }

    #[inline(always)]
    fn handle(index: u16, generation: u32) -> Option<Self::Handle> {
        Some(nektawul::Ptr::new(index, generation))
    }

    fn generation(p: Self::Handle) -> u64 {
        p.generation.into()
    }
}

ptr_struct!(Handle[NonZeroU16](NonZeroU32));

/// triple_arena with 16-bit index, 32-bit generation and a fixed backing.
pub struct TripleArena(Arena<Handle, u64, FixedHeapBacking>);

const ONE: NonZeroU16 = NonZeroU16::MIN;

fn pair(p: Handle) -> nektawul::Ptr {
    nektawul::Ptr::new(p.inx().get(), p.generation().get())
}

fn taken<T>(result: InvalidationResult<T>) -> Option<T> {
    match result {
        InvalidationResult::Success(t) | InvalidationResult::GenerationOverflow(t) => Some(t),
        InvalidationResult::InvalidPtr => None,
    }
}

impl Messages for TripleArena {
    type Handle = Handle;

    fn new(places: usize) -> Self {
        Self(Arena::with_min_capacity(places).expect("there is memory"))
    }

    #[inline(always)]
    fn insert(&mut self, value: u64) -> Option<Handle> {
        self.0.insert_within_capacity(value).ok()
    }

    #[inline(always)]
    fn remove(&mut self, p: Handle) -> Option<u64> {
        taken(self.0.remove(p))
    }

    #[inline(always)]
    fn get(&self, p: Handle) -> Option<u64> {
        self.0.get(p).copied()
    }

    #[inline(always)]
    fn put(&mut self, p: Handle, value: u64) -> bool {
        self.0.get_mut(p).map(|old| *old = value).is_some()
    }

    #[inline(always)]
    fn clear(&mut self) {
        self.0.clear().allow();
    }

    #[inline(always)]
    fn walk(&self) -> impl Iterator<Item = u64> {
        let mut advancer = self.0.advancer_inx(ONE, false);
        std::iter::from_fn(move || advancer.advance(&self.0)).map(Self::index)
    }

    #[inline(always)]
    fn drain(&mut self) -> impl Iterator<Item = u64> {
        self.0.drain().map(|drained| drained.allow().1)
    }

    #[inline(always)]
    fn index(p: Handle) -> u64 {
        p.inx().get().into()
    }
}

impl Places for TripleArena {
    #[inline(always)]
    fn invalidate(&mut self, p: Handle) -> Option<Handle> {
        taken(self.0.invalidate(p))
    }

    #[inline(always)]
    fn remove_inx(&mut self, index: u16) -> Option<u64> {
        taken(self.0.remove_inx(NonZeroU16::new(index)?)).map(|(_, value)| value)
    }

    #[inline(always)]
    fn order(&mut self) {
        self.0.canonicalize_freelist();
    }

    #[inline(always)]
    fn compress(&mut self, reset: bool, rows: &mut [Row]) -> bool {
        if rows.len() < self.0.len() {
            return false;
        }
        let mut rows = rows.iter_mut();
        let option = self.0.compress_with(reset, |old, _, new| {
            if let Some(row) = rows.next() {
                *row = Row { old: pair(old), new: pair(new), overflow: false };
            }
        });
        option.allow();
        true
    }

    #[inline(always)]
    fn audit(&self) -> u64 {
        Arena::_check_invariants(&self.0).is_err().into()
    }

    #[inline(always)]
    fn set_generation(&mut self, generation: u32) -> bool {
        NonZeroU32::new(generation).map(|generation| self.0.set_generation(generation)).is_some()
    }

    #[inline(always)]
    fn copy_from(&mut self, source: &Self) -> bool {
        self.0.clone_from_with(&source.0, |_, &value: &u64| value).is_ok()
    }

    #[inline(always)]
    fn transfer_from(&mut self, source: &mut Self, rows: &mut [Row]) -> bool {
        if rows.len() < source.0.len() {
            return false;
        }
        let mut rows = rows.iter_mut();
        let two = NonZeroU32::MIN.saturating_add(1);
        let moved = self.0.transfer_reallocating(two, &mut source.0, |old, message, new| {
            let overflow = matches!(message, InvalidationOption::GenerationOverflow(_));
            if let Some(row) = rows.next() {
                *row = Row { old: pair(old), new: pair(new), overflow };
            }
            message.allow()
        });
        moved.is_ok()
    }

    fn root(&self) -> u64 {
        self.0.freelist_root().map_or(0, |root| root.get().into())
    }

    fn len(&self) -> u64 {
        self.0.len() as u64
    }

    #[inline(always)]
    fn handle(index: u16, generation: u32) -> Option<Handle> {
        Some(Handle::_from_raw(NonZeroU16::new(index)?, NonZeroU32::new(generation)?))
    }

    fn generation(p: Handle) -> u64 {
        p.generation().get().into()
    }
}

/// slotmap, which grows and has no limit: it is made with room for the places.
pub struct Slots(SlotMap<DefaultKey, u64>);

impl Messages for Slots {
    type Handle = DefaultKey;

    fn new(places: usize) -> Self {
        Self(SlotMap::with_capacity(places))
    }

    #[inline(always)]
    fn insert(&mut self, value: u64) -> Option<DefaultKey> {
        Some(self.0.insert(value))
    }

    #[inline(always)]
    fn remove(&mut self, p: DefaultKey) -> Option<u64> {
        self.0.remove(p)
    }

    #[inline(always)]
    fn get(&self, p: DefaultKey) -> Option<u64> {
        self.0.get(p).copied()
    }

    #[inline(always)]
    fn put(&mut self, p: DefaultKey, value: u64) -> bool {
        self.0.get_mut(p).map(|old| *old = value).is_some()
    }

    #[inline(always)]
    fn clear(&mut self) {
        self.0.clear();
    }

    #[inline(always)]
    fn walk(&self) -> impl Iterator<Item = u64> {
        self.0.keys().map(Self::index)
    }

    #[inline(always)]
    fn drain(&mut self) -> impl Iterator<Item = u64> {
        self.0.drain().map(|(_, value)| value)
    }

    #[inline(always)]
    fn index(p: DefaultKey) -> u64 {
        p.data().as_ffi() & 0xffff_ffff
    }
}

/// A store behind calls that are not inlined, as a peer behind a boundary would be. Their addresses are given away, so that the compiler cannot
/// change what they take.
pub struct Called<S>(S);

/// An iterator whose next item takes a call.
struct CalledNext<I>(I);

impl<I: Iterator> CalledNext<I> {
    #[inline(always)]
    fn new(items: I) -> Self {
        black_box(Self::next as fn(&mut _) -> _);
        Self(items)
    }
}

impl<I: Iterator> Iterator for CalledNext<I> {
    type Item = I::Item;

    #[inline(never)]
    fn next(&mut self) -> Option<I::Item> {
        self.0.next()
    }
}

impl<S: Messages> Messages for Called<S> {
    type Handle = S::Handle;

    fn new(places: usize) -> Self {
        black_box(Self::insert as fn(&mut _, _) -> _);
        black_box(Self::remove as fn(&mut _, _) -> _);
        black_box(Self::get as fn(&_, _) -> _);
        black_box(Self::put as fn(&mut _, _, _) -> _);
        Self(S::new(places))
    }

    #[inline(never)]
    fn insert(&mut self, value: u64) -> Option<S::Handle> {
        self.0.insert(value)
    }

    #[inline(never)]
    fn remove(&mut self, p: S::Handle) -> Option<u64> {
        self.0.remove(p)
    }

    #[inline(never)]
    fn get(&self, p: S::Handle) -> Option<u64> {
        self.0.get(p)
    }

    #[inline(never)]
    fn put(&mut self, p: S::Handle, value: u64) -> bool {
        self.0.put(p, value)
    }

    #[inline(never)]
    fn clear(&mut self) {
        self.0.clear();
    }

    #[inline(always)]
    fn walk(&self) -> impl Iterator<Item = u64> {
        CalledNext::new(self.0.walk())
    }

    #[inline(always)]
    fn drain(&mut self) -> impl Iterator<Item = u64> {
        CalledNext::new(self.0.drain())
    }

    #[inline(always)]
    fn index(p: S::Handle) -> u64 {
        S::index(p)
    }
}

impl<S: Places> Places for Called<S> {
    #[inline(never)]
    fn invalidate(&mut self, p: S::Handle) -> Option<S::Handle> {
        self.0.invalidate(p)
    }

    #[inline(never)]
    fn remove_inx(&mut self, index: u16) -> Option<u64> {
        self.0.remove_inx(index)
    }

    #[inline(never)]
    fn order(&mut self) {
        self.0.order();
    }

    #[inline(never)]
    fn compress(&mut self, reset: bool, rows: &mut [Row]) -> bool {
        self.0.compress(reset, rows)
    }

    #[inline(never)]
    fn audit(&self) -> u64 {
        self.0.audit()
    }

    #[inline(never)]
    fn set_generation(&mut self, generation: u32) -> bool {
        self.0.set_generation(generation)
    }

    #[inline(never)]
    fn copy_from(&mut self, source: &Self) -> bool {
        self.0.copy_from(&source.0)
    }

    #[inline(never)]
    fn transfer_from(&mut self, source: &mut Self, rows: &mut [Row]) -> bool {
        self.0.transfer_from(&mut source.0, rows)
    }

    fn root(&self) -> u64 {
        self.0.root()
    }

    fn len(&self) -> u64 {
        self.0.len()
    }

    #[inline(always)]
    fn handle(index: u16, generation: u32) -> Option<S::Handle> {
        S::handle(index, generation)
    }

    fn generation(p: S::Handle) -> u64 {
        S::generation(p)
    }
}
