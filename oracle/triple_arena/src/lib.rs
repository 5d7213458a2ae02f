//! triple_arena 0.15.1, as far as `Arena` goes: the crate's unchanged files (build.rs finds them), and what its other files would give. That
//! is the names by which the files find each other, here, and the backing of fixed capacity, in fixed.rs.
#![allow(dead_code, unused_imports)]

pub mod fixed;

mod fundamental {
    include!(concat!(env!("OUT_DIR"), "/fundamental.rs"));
    pub use self::{advancer::*, extra::*, ptr::*};
}

mod stack {
    include!(concat!(env!("OUT_DIR"), "/stack.rs"));
    pub use self::{arena_backing::*, nonzero_inx_generic_stack::*};
}

mod arena {
    include!(concat!(env!("OUT_DIR"), "/arena.rs"));
    pub use self::{arena_traits::*, base_arena::*};
}

pub use arena::{Arena, arena_iterators};
pub use fundamental::{InvalidationOption, InvalidationResult, errors};
pub use stack::{FixedHeapBacking, HeapBacking};

pub mod traits {
    pub use crate::{
        arena::{
            ArenaCloneFromWith, ArenaInsertEntryTrait, ArenaInsertTrait, ArenaTrait, CompactArenaTrait,
            DisjointableArenaTrait,
        },
        fundamental::{Advancer, Ptr},
        stack::SetMaxCapacity,
    };
    pub use recasting::{Recast, Recaster};
}

pub mod utils {
    pub(crate) use crate::arena::{from_checked_ptr, from_checked_raw};
    pub use crate::{
        arena::ArenaSlot,
        fixed::{NonZeroInxArray, NonZeroInxBoxedSlice, NonZeroInxLimitedVec, NonZeroInxVec},
    };

    pub mod traits {
        pub use crate::{
            fundamental::{PtrGen, PtrInx},
            stack::{ArenaBacking, NonZeroInxGenericStack, NonZeroInxGenericStackPushEntryTrait},
        };
    }
}
