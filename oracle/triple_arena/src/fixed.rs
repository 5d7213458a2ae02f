//! Stands in for the crate's stacks, which are not among its files at hand. The fixed one has exactly as many slots as it is made with; what
//! it answers when more are asked for is document 01's refusal 9.
use std::num::NonZeroUsize;

use crate::{
    errors::{AllocError, NotWithinCapacityError, ReallocationError},
    utils::traits::{NonZeroInxGenericStack, NonZeroInxGenericStackPushEntryTrait},
};

/// The stack of `FixedHeapBacking`: slots 1 to `capacity`, of which the first `len` are there. What its caller has tested is tested again only where
/// debug assertions are on, as in the comparison; a benchmark measures the crate without such tests.
pub struct NonZeroInxBoxedSlice<T> {
    slots: Vec<T>,
    capacity: usize,
}

/// A slot that can be pushed.
pub struct PushEntry<'a, T>(&'a mut NonZeroInxBoxedSlice<T>);

impl<'a, T> NonZeroInxGenericStackPushEntryTrait<'a, T> for PushEntry<'a, T> {
    fn inx(&self) -> NonZeroUsize {
        NonZeroUsize::MIN.saturating_add(self.0.slots.len())
    }

    fn push(self, t: T) {
        // Safety: there is an entry only where a slot is left
        unsafe { std::hint::assert_unchecked(self.0.slots.len() < self.0.slots.capacity()) };
        self.0.slots.push(t);
    }
}

// Safety: indices count from 1, `len` slots are there, and none moves but by `pop` and `clear`.
unsafe impl<T> NonZeroInxGenericStack<T> for NonZeroInxBoxedSlice<T> {
    type PushEntry<'a>
        = PushEntry<'a, T>
    where
        Self: 'a;

    fn new() -> Self {
        Self { slots: Vec::new(), capacity: 0 }
    }

    fn with_min_capacity(min_capacity: usize) -> Result<Self, AllocError> {
        Ok(Self { slots: Vec::with_capacity(min_capacity), capacity: min_capacity })
    }

    fn capacity(&self) -> usize {
        self.capacity
    }

    fn max_capacity(&self) -> Option<usize> {
        Some(self.capacity)
    }

    fn reallocate_min_capacity(&mut self, min_capacity: usize) -> Result<(), ReallocationError> {
        if min_capacity > self.capacity {
            return Err(ReallocationError::BeyondMaxCapacity);
        }
        Ok(())
    }

    fn len(&self) -> usize {
        self.slots.len()
    }

    fn entry_push_within_capacity(&mut self) -> Result<Self::PushEntry<'_>, NotWithinCapacityError> {
        if self.slots.len() == self.capacity {
            return Err(NotWithinCapacityError);
        }
        Ok(PushEntry(self))
    }

    unsafe fn get_unchecked(&self, inx: NonZeroUsize) -> &T {
        debug_assert!(inx.get() <= self.slots.len());
        // Safety: the caller has tested the index
        unsafe { self.slots.get_unchecked(inx.get() - 1) }
    }

    unsafe fn get_unchecked_mut(&mut self, inx: NonZeroUsize) -> &mut T {
        debug_assert!(inx.get() <= self.slots.len());
        // Safety: as above
        unsafe { self.slots.get_unchecked_mut(inx.get() - 1) }
    }

    unsafe fn get_disjoint_unchecked_mut<const N: usize>(&mut self, indices: [NonZeroUsize; N]) -> [&mut T; N] {
        self.slots.get_disjoint_mut(indices.map(|i| i.get() - 1)).expect("the caller has tested the indices")
    }

    fn pop(&mut self) -> Option<T> {
        self.slots.pop()
    }

    fn clear(&mut self) {
        self.slots.clear();
    }
}

/// The other backings are named by the crate's files and used by nothing here.
pub type NonZeroInxVec<T> = NonZeroInxBoxedSlice<T>;
pub type NonZeroInxLimitedVec<T> = NonZeroInxBoxedSlice<T>;
pub type NonZeroInxArray<T, const LIMIT: usize> = NonZeroInxBoxedSlice<T>;
