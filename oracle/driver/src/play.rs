//! A script played: each line's call on the two stores and the journal, and the line that shows its answer.
use std::{
    cell::Cell,
    fmt::{self, Display, Formatter, Write},
    mem,
    ops::AddAssign,
    panic::{AssertUnwindSafe, catch_unwind, set_hook, take_hook},
};

use crate::{
    calls::{Answer, Journal, Outcome, Row, call},
    paper,
    script::{Code, Line},
    store::{Header, Place, Store},
};

/// Who gives the answers.
#[derive(Clone, Copy, PartialEq, Eq)]
pub enum Judge {
    /// Document 01's refusals 1 to 5 come first, then the Rust.
    Both,
    /// The Rust alone, with its own words and its panics.
    Rust,
}

thread_local! {
    /// Whether the Rust is being asked: then a panic is an answer, and is shown as one.
    static ASKS: Cell<bool> = const { Cell::new(false) };
}

/// From now on a panic of the Rust prints nothing.
pub fn hush_answers() {
    let usual = take_hook();
    set_hook(Box::new(move |panic| {
        if !ASKS.get() {
            usual(panic);
        }
    }));
}

/// How many calls were decided by whom.
#[derive(Clone, Copy, Default)]
pub struct Counts {
    pub rust: u64,
    pub paper: u64,
    /// On a store that the Rust cannot hold.
    pub none: u64,
}

impl AddAssign for Counts {
    fn add_assign(&mut self, more: Self) {
        self.rust += more.rust;
        self.paper += more.paper;
        self.none += more.none;
    }
}

impl Display for Counts {
    fn fmt(&self, f: &mut Formatter<'_>) -> fmt::Result {
        let Self { rust, paper, none } = self;
        write!(f, "{rust} calls answered by the Rust, {paper} refused by document 01 before it")?;
        if *none > 0 {
            write!(f, ", {none} on stores that the Rust cannot hold, not compared")?;
        }
        Ok(())
    }
}

pub struct Player {
    pub store: Store,
    pub other: Store,
    pub journal: Journal,
    pub counts: Counts,
    judge: Judge,
}

/// Equal neighbours are shown once with their number.
fn show_runs<T: PartialEq>(out: &mut String, items: impl Iterator<Item = T>, show: impl Fn(&mut String, &T)) {
    *out += " |";
    let mut items = items.peekable();
    while let Some(item) = items.next() {
        let mut count = 1;
        while items.next_if_eq(&item).is_some() {
            count += 1;
        }
        out.push(' ');
        show(out, &item);
        if count > 1 {
            write!(out, "*{count}").expect("a string takes all");
        }
    }
}

fn show_numbers<T: Display>(out: &mut String, numbers: impl IntoIterator<Item = T>) {
    for number in numbers {
        write!(out, " {number}").expect("a string takes all");
    }
}

fn show_store(out: &mut String, s: &Store) {
    let Header { len, m, root, generation } = s.header;
    *out += " |";
    show_numbers(out, [len, m as u64, root.into(), generation.into()]);
    show_runs(out, s.shown(), |out, &Place { generation, link, value }| {
        write!(out, "{generation}:{link}:{value}").expect("a string takes all");
    });
}

fn show_rows(out: &mut String, journal: &Journal) {
    show_runs(out, journal.shown(), |out, [a, b, c, d, e]| {
        write!(out, "{a}:{b}:{c}:{d}:{e}").expect("a string takes all");
    });
}

fn show_answer(out: &mut String, answer: &Answer, judge: Judge) {
    match *answer {
        Answer::Done(index, generation, value) => {
            *out += ": ok";
            show_numbers(out, [index.into(), generation.into(), value]);
        }
        Answer::Overflow(index, generation, value) => {
            *out += ": over";
            show_numbers(out, [index.into(), generation.into(), value]);
        }
        Answer::Refused(number, word) => match judge {
            Judge::Both => *out += &format!(": no{number}"),
            Judge::Rust => *out += &format!(": {word}"),
        },
        Answer::Panicked => *out += ": panics",
    }
}

/// What a line is answered by where the Rust cannot hold the store.
pub const UNKNOWN: &str = "?";

impl Player {
    pub fn new(judge: Judge) -> Self {
        Self {
            store: Store::without_places(),
            other: Store::without_places(),
            journal: Journal::without_rows(),
            counts: Counts::default(),
            judge,
        }
    }

    /// Plays a line on the store that it names, and gives the line that is its answer; none if it is no call.
    pub fn play(&mut self, line: &Line) -> Option<String> {
        if line.other {
            mem::swap(&mut self.store, &mut self.other);
        }
        let answer = self.turn(line);
        if line.other {
            mem::swap(&mut self.store, &mut self.other);
        }
        answer
    }

    fn turn(&mut self, line: &Line) -> Option<String> {
        let w = &line.words;
        match line.code {
            Code::Store => {
                self.store.lengths = [w[0] as usize, w[1] as usize, w[2] as usize];
                self.store.header = Header {
                    len: (w[3] as u16).into(),
                    m: (w[4] as u16).into(),
                    root: w[5] as u16,
                    generation: w[6] as u32,
                };
                self.store.write((1..=6).map(|p| line.place(p)));
                self.store.load();
                None
            }
            Code::Fill => {
                let place = Place { generation: w[0] as u32, link: w[1] as u16, value: w[2] };
                self.store.write(std::iter::repeat(place));
                self.store.load();
                None
            }
            Code::Journal => {
                self.journal.lengths = std::array::from_fn(|i| w[i] as usize);
                let handle = (w[5] as u16, w[5] as u32);
                self.journal.fill(Row { old: handle, new: handle, overflow: w[6] != 0 });
                None
            }
            Code::New => {
                self.store.lay_out(w[0] as usize);
                self.counts.rust += 1;
                Some(self.shown(line, &Answer::Done(0, 0, 0).into()))
            }
            _ => Some(self.called(line)),
        }
    }

    fn called(&mut self, line: &Line) -> String {
        match self.outcome(line) {
            Some(outcome) => self.shown(line, &outcome),
            None => {
                self.store.lost = true;
                if paper::has_two(line.code) {
                    self.other.lost = true;
                }
                self.counts.none += 1;
                UNKNOWN.to_string()
            }
        }
    }

    /// The answer of a call's line; none where the Rust cannot hold a store that it is about.
    pub fn outcome(&mut self, line: &Line) -> Option<Outcome> {
        if self.store.lost || paper::has_two(line.code) && self.other.lost {
            return None;
        }
        if self.judge == Judge::Both {
            let number = paper::refusal(line, &self.store, &self.other, &self.journal)?;
            if number != 0 {
                self.counts.paper += 1;
                let cursor = matches!(line.code, Code::Advance | Code::Drain)
                    .then(|| (line.words[0] as u16, line.words[1] != 0));
                return Some(Outcome { answer: Answer::Refused(number, ""), looks: None, cursor });
            }
        } else if self.store.arena.is_none() || paper::has_two(line.code) && self.other.arena.is_none() {
            return None;
        }
        self.counts.rust += 1;
        let judges = self.judge == Judge::Both;
        let (store, other, journal) = (&mut self.store, &mut self.other, &mut self.journal);
        ASKS.set(true);
        let done = catch_unwind(AssertUnwindSafe(|| call(line, store, other, journal, judges)));
        ASKS.set(false);
        Some(done.unwrap_or_else(|_| Answer::Panicked.into()))
    }

    /// The line of a call: the call, its answer, and what it leaves.
    fn shown(&self, line: &Line, outcome: &Outcome) -> String {
        let mut out = String::new();
        if line.other {
            out += "other ";
        }
        out += line.name();
        show_numbers(&mut out, &line.words);
        show_answer(&mut out, &outcome.answer, self.judge);
        show_numbers(&mut out, outcome.looks);
        if let Some((index, rev)) = outcome.cursor {
            out += &format!(" cursor {index} {}", u8::from(rev));
        }
        if outcome.answer == Answer::Panicked {
            return out;
        }
        show_store(&mut out, &self.store);
        if paper::has_two(line.code) {
            show_store(&mut out, &self.other);
        }
        if matches!(line.code, Code::Compress | Code::Transfer) {
            show_rows(&mut out, &self.journal);
        }
        out
    }
}
