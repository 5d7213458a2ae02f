//! The sides of the comparison, and how each plays a work.
use std::{
    path::{Path, PathBuf},
    process::Command,
};

use crate::{
    sequence,
    store::{Called, Library, Messages, Places, Slots, TripleArena},
    work::{self, Size},
};

#[derive(Clone, Copy, PartialEq, Eq, Debug)]
pub enum Side {
    /// The Rattle program `bench_calls`: a loop that calls the store, no boundary.
    Inside,
    /// The library, through the C boundary.
    Library,
    /// triple_arena and slotmap, inlined into the loop.
    Arena,
    Slots,
    /// The same two behind calls that are not inlined.
    ArenaCalled,
    SlotsCalled,
    /// Ways to play a sequence on the library.
    LibrarySteps,
    LibraryCalls,
}

pub const SIDES: [(&str, Side); 8] = [
    ("inside", Side::Inside),
    ("library", Side::Library),
    ("triple_arena", Side::Arena),
    ("slotmap", Side::Slots),
    ("triple_arena_called", Side::ArenaCalled),
    ("slotmap_called", Side::SlotsCalled),
    ("library_steps", Side::LibrarySteps),
    ("library_calls", Side::LibraryCalls),
];

/// The works of the Rattle program.
const INSIDE: [&str; 6] = ["insert", "get", "stale", "churn", "walk", "compress"];

fn messages<S: Messages>(name: &str, size: Size) -> Option<u64> {
    Some(match name {
        "insert" => work::insert::<S>(size),
        "get" => work::get::<S>(size),
        "stale" => work::stale::<S>(size),
        "put" => work::put::<S>(size),
        "churn" => work::churn::<S>(size),
        "walk" => work::walk::<S>(size),
        "drain" => work::drain::<S>(size),
        _ => return None,
    })
}

fn places<S: Places>(name: &str, size: Size) -> Option<u64> {
    Some(match name {
        "invalidate" => work::invalidate::<S>(size),
        "compress" => work::compress::<S>(size),
        "order" => work::order::<S>(size),
        "audit" => work::audit::<S>(size),
        "copy" => work::copy::<S>(size),
        "transfer" => work::transfer::<S>(size),
        _ => return messages::<S>(name, size),
    })
}

/// What is played: a work, or a sequence file of so many commands.
#[derive(Clone, Copy)]
pub enum Played {
    Work(&'static str, Size),
    Sequence { commands: usize, turns: u32 },
}

impl Played {
    /// The same, so often.
    pub fn with_turns(self, turns: u32) -> Self {
        match self {
            Self::Work(name, size) => Self::Work(name, Size { turns, ..size }),
            Self::Sequence { commands, .. } => Self::Sequence { commands, turns },
        }
    }

    pub fn turns(self) -> u32 {
        match self {
            Self::Work(_, size) => size.turns,
            Self::Sequence { turns, .. } => turns,
        }
    }

    /// As the arguments of `bench_calls`; a sequence is written to a file of the folder.
    pub fn arguments(self, folder: &Path) -> Vec<String> {
        match self {
            Self::Work(name, Size { places, stride, turns }) => {
                vec![name.to_string(), places.to_string(), stride.to_string(), turns.to_string()]
            }
            Self::Sequence { commands, turns } => {
                let path = folder.join(format!("{commands}.seq"));
                if !path.exists() {
                    std::fs::write(&path, sequence::file(commands)).expect("the folder can be written");
                }
                vec!["sequence".to_string(), path.display().to_string(), turns.to_string()]
            }
        }
    }

    /// Whether the side has such a call. The Rattle program plays some works only.
    pub fn known(self, side: Side) -> bool {
        match (self, side) {
            (Self::Work(name, _), Side::Inside) => INSIDE.contains(&name),
            (Self::Sequence { .. }, Side::Inside) => true,
            _ => self.with_turns(0).play(side).is_some(),
        }
    }

    /// Plays it in this process; none where the side has no such call.
    pub fn play(self, side: Side) -> Option<u64> {
        match self {
            Self::Work(name, size) => match side {
                Side::Library => places::<Library>(name, size),
                Side::Arena => places::<TripleArena>(name, size),
                Side::ArenaCalled => places::<Called<TripleArena>>(name, size),
                Side::Slots => messages::<Slots>(name, size),
                Side::SlotsCalled => messages::<Called<Slots>>(name, size),
                _ => None,
            },
            Self::Sequence { commands, turns } => {
                let file = sequence::file(commands);
                match side {
                    Side::Library => Some(sequence::play::<Library>(&file, turns, sequence::by_run)),
                    Side::LibrarySteps => Some(sequence::play::<Library>(&file, turns, sequence::by_steps)),
                    Side::LibraryCalls => Some(sequence::play::<Library>(&file, turns, sequence::by_calls)),
                    Side::Arena => Some(sequence::play::<TripleArena>(&file, turns, sequence::by_calls)),
                    Side::ArenaCalled => Some(sequence::play::<Called<TripleArena>>(&file, turns, sequence::by_calls)),
                    _ => None,
                }
            }
        }
    }
}

/// The Rattle program, and a folder for the sequence files that it reads.
pub struct Inside {
    pub program: PathBuf,
    pub folder: PathBuf,
}

impl Inside {
    /// The sum that the program prints.
    pub fn play(&self, played: Played) -> u64 {
        let output = Command::new(&self.program).args(played.arguments(&self.folder)).output();
        let output = output.unwrap_or_else(|e| panic!("{}: {e}", self.program.display()));
        let text = String::from_utf8_lossy(&output.stdout);
        text.trim().parse().unwrap_or_else(|_| panic!("{}: {text}", self.program.display()))
    }
}
