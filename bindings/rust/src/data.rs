//! The plain data of the calls, laid out as in `include/nektawul.h`.
use std::{error::Error, fmt, mem::offset_of};

/// A message's handle. Index 0 names no place and generation 0 no message.
#[repr(C)]
#[derive(Clone, Copy, PartialEq, Eq, Hash, Debug, Default)]
pub struct Ptr {
    pub index: u16,
    pub generation: u32,
}

impl Ptr {
    /// The largest index that a handle can have.
    pub const MAX_INDEX: u16 = u16::MAX;

    pub const fn new(index: u16, generation: u32) -> Self {
        Self { index, generation }
    }
}

/// The store's numbers: live messages, stack length, root of the free chain (0 is none), current generation.
#[repr(C)]
#[derive(Clone, Copy, PartialEq, Eq, Hash, Debug, Default)]
pub struct Header {
    pub len: u16,
    pub m: u16,
    pub root: u16,
    pub generation: u32,
}

/// The next index to look at (0 is spent), and whether it counts down.
#[repr(C)]
#[derive(Clone, Copy, PartialEq, Eq, Hash, Debug, Default)]
pub struct Cursor {
    pub index: u16,
    pub rev: bool,
}

impl Cursor {
    /// A cursor that looks at no place.
    pub const SPENT: Self = Self { index: 0, rev: false };

    /// Upwards, from the place `index` on.
    pub const fn up_from(index: u16) -> Self {
        Self { index, rev: false }
    }

    /// Downwards, from the place `index` on.
    pub const fn down_from(index: u16) -> Self {
        Self { index, rev: true }
    }
}

/// One record of the journal: a moved message's old and new handle, and whether its removal overflowed.
#[repr(C)]
#[derive(Clone, Copy, PartialEq, Eq, Hash, Debug, Default)]
pub struct Row {
    pub old: Ptr,
    pub new: Ptr,
    pub overflow: bool,
}

/// A sequence's state: the next command's number, from 1, and the header.
#[repr(C)]
#[derive(Clone, Copy, PartialEq, Eq, Hash, Debug, Default)]
pub struct State {
    pub next: u16,
    pub header: Header,
}

/// What the check of a sequence file gives: the refusal's number (0 is none) and the command at fault (0 where none is).
#[repr(C)]
#[derive(Clone, Copy, PartialEq, Eq, Hash, Debug, Default)]
pub struct Checked {
    pub refusal: u8,
    pub fault: u16,
}

/// Counts of a run: for each command code, from 1, how many were done, overflowed and were refused.
pub type Tally = [[u32; 3]; 10];

/// The three lent tables, of any lengths and contents: the library refuses what is unfit.
#[derive(PartialEq, Eq, Debug, Default)]
pub struct Tables<'a> {
    pub generations: &'a mut [u32],
    pub links: &'a mut [u16],
    pub values: &'a mut [u64],
}

impl Tables<'_> {
    /// The same tables, only to be read.
    pub fn view(&self) -> View<'_> {
        View { generations: self.generations, links: self.links, values: self.values }
    }
}

/// The three tables lent to a call that only reads them.
#[derive(Clone, Copy, PartialEq, Eq, Debug, Default)]
pub struct View<'a> {
    pub generations: &'a [u32],
    pub links: &'a [u16],
    pub values: &'a [u64],
}

/// A call's answer in the form that all calls share: the handle and the value that it shows (zeros where it shows none), or why it was
/// turned down.
#[derive(Clone, Copy, PartialEq, Eq, Hash, Debug)]
pub enum Answer {
    Done(Ptr, u64),
    /// Done, and the generation went from its largest number to 2.
    Overflow(Ptr, u64),
    Refused(Refusal),
}

/// The answer of a sequence's step.
#[derive(Clone, Copy, PartialEq, Eq, Hash, Debug)]
pub enum StepAnswer {
    /// The command's own answer.
    Ran(Answer),
    /// Past the last command: nothing is changed.
    End,
    /// The step itself is turned down, with the command at fault (0 where none is).
    TurnedDown(Refusal, u16),
}

/// Why a call was turned down. The numbers are document 01's, in checking order.
#[repr(u8)]
#[derive(Clone, Copy, PartialEq, Eq, PartialOrd, Ord, Hash, Debug)]
pub enum Refusal {
    TablesUnfit = 1,
    HeaderUnfit,
    ZeroGiven,
    Unsound,
    JournalShort,
    InvalidPtr,
    NotWithinCapacity,
    AllocError,
    BeyondMaxCapacity,
    WrongLength,
    WrongMark,
    WrongPlaces,
    WrongCommand,
}

impl Refusal {
    /// All refusals, by their numbers from 1.
    pub const ALL: [Self; 13] = [
        Self::TablesUnfit,
        Self::HeaderUnfit,
        Self::ZeroGiven,
        Self::Unsound,
        Self::JournalShort,
        Self::InvalidPtr,
        Self::NotWithinCapacity,
        Self::AllocError,
        Self::BeyondMaxCapacity,
        Self::WrongLength,
        Self::WrongMark,
        Self::WrongPlaces,
        Self::WrongCommand,
    ];

    /// Document 01's number, from 1 to 13.
    pub const fn number(self) -> u8 {
        self as u8
    }

    /// The refusal of a number, where there is one.
    pub fn of(number: u8) -> Option<Self> {
        Self::ALL.get(usize::from(number).wrapping_sub(1)).copied()
    }
}

impl fmt::Display for Refusal {
    fn fmt(&self, f: &mut fmt::Formatter<'_>) -> fmt::Result {
        f.write_str(match self {
            Self::TablesUnfit => "the tables differ in length or have more than 1,024 entries",
            Self::HeaderUnfit => "the header does not fit the tables, or its generation is 0",
            Self::ZeroGiven => "an index or a generation given is 0",
            Self::Unsound => "the store is unsound",
            Self::JournalShort => "the journal has fewer rows than messages to be moved",
            Self::InvalidPtr => "no message is there under this handle",
            Self::NotWithinCapacity => "no place is left",
            Self::AllocError => "more than 65,535 places are asked for",
            Self::BeyondMaxCapacity => "the store has not so many places",
            Self::WrongLength => "the sequence has a wrong length",
            Self::WrongMark => "the sequence has a wrong mark, version or eighth byte",
            Self::WrongPlaces => "the sequence is for another number of places, or its next number is out of range",
            Self::WrongCommand => "the sequence has an unknown command or a field that is not permitted",
        })
    }
}

impl Error for Refusal {}

const _: () = {
    assert!(size_of::<Ptr>() == 8 && offset_of!(Ptr, generation) == 4);
    assert!(size_of::<Header>() == 12 && offset_of!(Header, m) == 2 && offset_of!(Header, root) == 4);
    assert!(offset_of!(Header, generation) == 8);
    assert!(size_of::<Cursor>() == 4 && offset_of!(Cursor, rev) == 2);
    assert!(size_of::<Row>() == 20 && offset_of!(Row, new) == 8 && offset_of!(Row, overflow) == 16);
    assert!(size_of::<State>() == 16 && offset_of!(State, header) == 4);
    assert!(size_of::<Checked>() == 4 && offset_of!(Checked, fault) == 2);
    assert!(size_of::<Tally>() == 120);
};
