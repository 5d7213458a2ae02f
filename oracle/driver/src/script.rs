//! The lines of a script, in the language of the program `replay_calls`: numbers, the first of them a code.
use crate::store::{MOST, Place};

/// What a line asks for, with the codes of the language.
#[derive(Clone, Copy, PartialEq, Eq, Debug)]
pub enum Code {
    Store = 0,
    InsertWithinCapacity = 1,
    InsertReallocating = 2,
    Remove = 3,
    RemoveInx = 4,
    Invalidate = 5,
    Get = 6,
    Put = 7,
    Clear = 8,
    Order = 9,
    Reserve = 10,
    FindFirst = 11,
    FindLast = 12,
    SetGeneration = 13,
    IncGeneration = 14,
    Audit = 15,
    Fill = 16,
    Advance = 17,
    Drain = 18,
    Compress = 19,
    Transfer = 20,
    CopyFrom = 21,
    Journal = 24,
    New = 25,
}

use Code::*;

/// Each code with its word and the number of its arguments; a store line may have more.
pub const CODES: [(Code, &str, usize); 24] = [
    (Store, "store", 7),
    (InsertWithinCapacity, "insert_within_capacity", 1),
    (InsertReallocating, "insert_reallocating", 1),
    (Remove, "remove", 2),
    (RemoveInx, "remove_inx", 1),
    (Invalidate, "invalidate", 2),
    (Get, "get", 2),
    (Put, "put", 3),
    (Clear, "clear", 0),
    (Order, "canonicalize_freelist", 0),
    (Reserve, "reallocate_min_capacity", 1),
    (FindFirst, "find_first_inx_ptr", 0),
    (FindLast, "find_last_inx_ptr", 0),
    (SetGeneration, "set_generation", 1),
    (IncGeneration, "inc_generation", 0),
    (Audit, "check_invariants", 0),
    (Fill, "fill", 3),
    (Advance, "advance", 2),
    (Drain, "drain", 2),
    (Compress, "compress_with", 1),
    (Transfer, "transfer_reallocating", 1),
    (CopyFrom, "clone_from_with", 0),
    (Journal, "journal", 7),
    (New, "new", 1),
];

/// A line that was understood.
#[derive(Clone, PartialEq, Eq)]
pub struct Line {
    pub code: Code,
    /// Whether it is about the other store.
    pub other: bool,
    /// The numbers after the code.
    pub words: Vec<u64>,
}

impl Line {
    pub fn new(code: Code, other: bool, words: &[u64]) -> Self {
        Self { code, other, words: words.to_vec() }
    }

    pub fn name(&self) -> &'static str {
        CODES.iter().find(|row| row.0 == self.code).expect("each code has a row").1
    }

    /// The words of place p, from 1, that a store line gives; 0 where left out.
    pub fn place(&self, p: usize) -> Place {
        let word = |n: usize| self.words.get(3 * p + 3 + n).copied().unwrap_or(0);
        Place { generation: word(1) as u32, link: word(2) as u16, value: word(3) }
    }

    /// The line as it stands in a script.
    pub fn text(&self) -> String {
        let code = self.code as u64 + if self.other { 100 } else { 0 };
        let mut text = format!("{code}");
        if self.other {
            text += " other";
        }
        text += &format!(" {}", self.name());
        for (i, word) in self.words.iter().enumerate() {
            let places = self.code == Store && i >= 7;
            text += if self.code == Store && (i == 3 || i == 7) || self.code == Journal && i == 5 {
                " | "
            } else if places && i % 3 != 1 {
                ":"
            } else {
                " "
            };
            text += &word.to_string();
        }
        text
    }
}

/// What is no digit parts the numbers.
fn numbers(text: &str) -> Vec<u64> {
    let parts = text.split(|c: char| !c.is_ascii_digit()).filter(|part| !part.is_empty());
    parts.map(|part| part.parse().unwrap_or(u64::MAX)).collect()
}

/// A line's numbers, or none if it fits no code.
pub fn read(text: &str) -> Option<Line> {
    let all = numbers(text);
    let (&first, words) = all.split_first()?;
    let other = first >= 100;
    let code = if other { first - 100 } else { first };
    let &(code, _, arguments) = CODES.iter().find(|row| row.0 as u64 == code)?;
    let most = MOST as u64;
    let fits = match code {
        Store => words.len() >= 7 && words.len() <= 25 && words.len() % 3 == 1,
        _ => words.len() == arguments,
    };
    let short = match code {
        Store => words.len() >= 3 && words[..3].iter().all(|&n| n <= most),
        Journal => words.len() >= 5 && words[..5].iter().all(|&n| n <= most),
        New => words.iter().all(|&n| n <= most),
        _ => true,
    };
    (fits && short && !(other && code == Journal)).then(|| Line { code, other, words: words.to_vec() })
}
