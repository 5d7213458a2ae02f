//! A call with its own arguments, what it is lent, and what it gives back.

use crate::model::answer::{Answer, Cursor, Handle, Row};
use crate::model::sequence::{Checked, Tally};
use crate::model::store::Store;

#[derive(Clone, Copy, Debug)]
pub enum Call {
    New,
    Insert(u64),
    InsertReallocating(u64),
    Remove(Handle),
    RemoveInx(u16),
    Invalidate(Handle),
    Get(Handle),
    Put(u64, Handle),
    Clear,
    Order,
    Compress(bool),
    Reserve(usize),
    Transfer(u32),
    Copy,
    Advance,
    Drain,
    FindFirst,
    FindLast,
    SetGeneration(u32),
    IncGeneration,
    Audit,
    Check,
    LentPlaces,
    Step,
    Run,
}

impl Call {
    /// The call's name in the table of what was met.
    pub fn name(&self) -> &'static str {
        match self {
            Call::New => "new",
            Call::Insert(_) => "insert_within_capacity",
            Call::InsertReallocating(_) => "insert_reallocating",
            Call::Remove(_) => "remove",
            Call::RemoveInx(_) => "remove_inx",
            Call::Invalidate(_) => "invalidate",
            Call::Get(_) => "get",
            Call::Put(..) => "put",
            Call::Clear => "clear",
            Call::Order => "order",
            Call::Compress(_) => "compress",
            Call::Reserve(_) => "reserve",
            Call::Transfer(_) => "transfer",
            Call::Copy => "copy",
            Call::Advance => "advance",
            Call::Drain => "drain",
            Call::FindFirst => "find_first",
            Call::FindLast => "find_last",
            Call::SetGeneration(_) => "set_generation",
            Call::IncGeneration => "inc_generation",
            Call::Audit => "audit",
            Call::Check => "check",
            Call::LentPlaces => "lent_places",
            Call::Step => "step",
            Call::Run => "run",
        }
    }
}

/// What calls are lent; each uses its part and must leave the rest. A transfer and a copy go from `other` into `store`. The header of a
/// sequence's state is that of `store`.
#[derive(Clone, Debug, PartialEq)]
pub struct Lent {
    pub store: Store,
    pub other: Store,
    pub journal: Vec<Row>,
    pub cursor: Cursor,
    pub next: u16,
    pub file: Vec<u8>,
}

/// What a call gives back beside what it does to what it is lent.
#[derive(Clone, Debug, PartialEq)]
pub enum Reply {
    Nothing,
    Answer(Answer),
    /// The audit's answer and its look count.
    Audit(Answer, u32),
    Checked(Checked),
    Places(usize),
    Run(Checked, Tally),
}
