//! Stands in for the crate of this name, which triple_arena's files import and which is not among them. A call of the store never recasts:
//! the traits are here because `Ptr`, `PtrInx` and `PtrGen` ask for them.
use std::num::{NonZeroU8, NonZeroU16, NonZeroU32, NonZeroU64, NonZeroU128, NonZeroUsize};

/// Gives for an item what stands in its place.
pub trait Recaster {
    type Item;

    fn recast_item(&self, item: &mut Self::Item) -> Result<(), Self::Item>;
}

/// Something whose items can be exchanged by a recaster.
pub trait Recast<I> {
    fn recast<R: Recaster<Item = I>>(&mut self, recaster: &R) -> Result<(), <R as Recaster>::Item>;
}

/// Numbers hold no items.
macro_rules! holds_no_items {
    ($($number:ty),*) => {
        $(
            impl<I> Recast<I> for $number {
                fn recast<R: Recaster<Item = I>>(&mut self, _: &R) -> Result<(), <R as Recaster>::Item> {
                    Ok(())
                }
            }
        )*
    };
}

holds_no_items!((), NonZeroU8, NonZeroU16, NonZeroU32, NonZeroU64, NonZeroU128, NonZeroUsize);
