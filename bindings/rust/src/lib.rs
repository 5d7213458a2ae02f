//! The message store of a display, proved in Rattle: [`Store`], over three tables that the display loop lends.
//!
//! A message is a `u64`. It is put in and a handle comes back; the handle shows the message until it is withdrawn, and after that it shows nothing, as
//! long as generations are not set back, reset or run over and nothing is transferred or copied into the store.
//! Whatever the tables, the header, the handles and the bytes hold, each call of the library is proved to end and to give the answer and the
//! words of the store's specification ("document 01"). What the proof leaves to a caller (pointers, counts, overlap) slices and borrows keep, so that
//! no function of this crate is unsafe. [`raw`] has the calls over any header and tables; `include/nektawul.h` is the same library for C.
#![deny(unsafe_code, unsafe_op_in_unsafe_fn)]

mod data;
#[allow(unsafe_code)]
mod ffi;
mod store;

pub use data::{Answer, Checked, Cursor, Header, Ptr, Refusal, Row, State, StepAnswer, Tables, Tally, View};
pub use store::{Advancer, Audit, Drain, Stepped, Store, TurnedDown};

/// Each exported function over any tables, header and other numbers whatever: the library refuses what is unfit.
pub mod raw {
    pub use crate::ffi::{
        advance, canonicalize_freelist, check, check_invariants, clear, clone_from_with, compress_with, drain,
        find_first_inx_ptr, find_last_inx_ptr, get, inc_generation, insert_reallocating, insert_within_capacity,
        invalidate, lent_places, new, put, reallocate_min_capacity, remove, remove_inx, run, set_generation, step,
        transfer_reallocating,
    };
}
