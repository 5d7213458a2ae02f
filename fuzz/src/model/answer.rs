//! What a call is handed and answers.

/// A handle; index 0 and generation 0 where there is none.
#[derive(Clone, Copy, Debug, Default, PartialEq, Eq)]
pub struct Handle {
    pub index: u16,
    pub generation: u32,
}

/// A cursor; index 0 is spent.
#[derive(Clone, Copy, Debug, PartialEq, Eq)]
pub struct Cursor {
    pub index: u16,
    pub rev: bool,
}

/// A row of the journal: one moved message.
#[derive(Clone, Copy, Debug, PartialEq, Eq)]
pub struct Row {
    pub old: Handle,
    pub new: Handle,
    pub overflow: bool,
}

#[derive(Clone, Copy, Debug, PartialEq, Eq)]
pub enum Kind {
    Done,
    Overflow,
    Refused(u8),
    /// A sequence's step past the last command.
    End,
    /// A sequence's step turned down: the refusal, and the command at fault or 0.
    TurnedDown(u8, u16),
}

/// An answer, with zeros where it shows no handle or no value.
#[derive(Clone, Copy, Debug, PartialEq, Eq)]
pub struct Answer {
    pub kind: Kind,
    pub handle: Handle,
    pub value: u64,
}

impl Answer {
    /// An answer that shows nothing.
    pub fn bare(kind: Kind) -> Answer {
        Answer { kind, handle: Handle::default(), value: 0 }
    }

    pub fn done() -> Answer {
        Answer::bare(Kind::Done)
    }

    /// The same answer, showing a handle and a value.
    pub fn showing(self, handle: Handle, value: u64) -> Answer {
        Answer { handle, value, ..self }
    }
}

/// What a call comes to: an answer, or the number by which it is refused.
pub type Outcome = Result<Answer, u8>;

/// The answer of an outcome.
pub fn told(outcome: Outcome) -> Answer {
    outcome.unwrap_or_else(|number| Answer::bare(Kind::Refused(number)))
}
