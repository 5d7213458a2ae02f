//! Where document 01's answer is not the Rust's: found by playing every small store both ways, one case for each kind of difference.
use std::{collections::BTreeMap, num::NonZeroU32};

use crate::{
    calls::verdict,
    every,
    play::{Judge, Player, UNKNOWN},
    script::{self, Line},
    store::Store,
};

/// How sound the stores of a case are.
#[derive(Clone, Copy, PartialEq, Eq, PartialOrd, Ord)]
enum Soundness {
    Sound,
    /// But for the generation 1, which `set_generation` gives.
    Generation1,
    Unsound,
}

impl Soundness {
    fn of(s: &Store) -> Self {
        let Some(mut arena) = s.loaded() else { return Self::Sound };
        match verdict(&arena) {
            0 => Self::Sound,
            1 => {
                arena.set_generation(NonZeroU32::MIN.saturating_add(1));
                if verdict(&arena) == 0 { Self::Generation1 } else { Self::Unsound }
            }
            _ => Self::Unsound,
        }
    }

    fn word(self) -> &'static str {
        match self {
            Self::Sound => "sound store",
            Self::Generation1 => "store sound but for its generation 1",
            Self::Unsound => "unsound store",
        }
    }
}

/// The answer of the last line, and how sound the stores were before it.
fn last_answer(lines: &[Line], judge: Judge) -> (String, Soundness) {
    let mut player = Player::new(judge);
    let (call, given) = lines.split_last().expect("a case has a call");
    for line in given {
        player.play(line);
    }
    let soundness = Soundness::of(&player.store).max(Soundness::of(&player.other));
    (player.play(call).expect("the last line is a call"), soundness)
}

/// A call's name, and the word that its answer begins with.
fn parts(answer: &str) -> (&str, &str) {
    let (call, after) = answer.split_once(": ").unwrap_or((answer, ""));
    let name = call.trim_start_matches("other ").split(' ').next().unwrap_or("");
    (name, after.split([' ', '|']).next().unwrap_or(""))
}

/// The Rust's word for a refusal, where document 01 has a number of its own for it.
fn means(number: &str, word: &str) -> bool {
    matches!(
        (number, word),
        ("no6", "InvalidPtr")
            | ("no7", "NotWithinCapacityError")
            | ("no8", "AllocError")
            | ("no9", "BeyondMaxCapacity")
    )
}

/// How sound the store is, document 01's answer, the Rust's, the call.
type Kind = (Soundness, String, String, String);

/// A case of a difference: the lines that lead to it, and both answers.
struct Case {
    lines: Vec<String>,
    paper: String,
    rust: String,
}

/// Of two cases of a kind, the one with the shorter lines is kept.
fn size(lines: &[String]) -> (usize, &[String]) {
    (lines.iter().map(String::len).sum(), lines)
}

#[derive(Default)]
struct Found(BTreeMap<Kind, Case>);

impl Found {
    fn try_case(&mut self, lines: &[Line]) {
        let (paper, soundness) = last_answer(lines, Judge::Both);
        let (rust, _) = last_answer(lines, Judge::Rust);
        if paper == rust || paper == UNKNOWN {
            return;
        }
        let (name, number) = parts(&paper);
        let (_, word) = parts(&rust);
        let left = |answer: &str| answer.split_once(" |").map(|(_, left)| left.to_string());
        if means(number, word) && left(&paper) == left(&rust) {
            return;
        }
        // an argument of 0 is a kind of its own only where nothing else is wrong
        if word == "cannot" && (number != "no3" || soundness != Soundness::Sound) {
            return;
        }
        let kind = (soundness, number.to_string(), word.to_string(), name.to_string());
        let lines: Vec<String> = lines.iter().map(Line::text).collect();
        if self.0.get(&kind).is_none_or(|known| size(&lines) < size(&known.lines)) {
            self.0.insert(kind, Case { lines, paper, rust });
        }
    }
}

/// The script of the numbered differences of docs/DIFFERENCES.md.
const LISTED: &str = include_str!("../listed.txt");

/// The numbered differences, with both answers to each call.
fn listed() -> String {
    let (mut paper, mut rust) = (Player::new(Judge::Both), Player::new(Judge::Rust));
    let mut out = String::new();
    for text in LISTED.lines() {
        out += &format!("{text}\n");
        let Some(line) = script::read(text).filter(|_| !text.starts_with('#')) else { continue };
        if let (Some(paper), Some(rust)) = (paper.play(&line), rust.play(&line)) {
            out += &format!("= {paper}\n~ {rust}\n");
        }
    }
    out
}

/// The record of the differences: those that are numbered, and then the smallest case of each kind. Under each heading stand the lines that lead
/// to it, document 01's answer (`=`) and the Rust's (`~`).
pub fn record() -> String {
    let mut found = Found::default();
    for places in 0..=2 {
        every::stores(places, |lines| found.try_case(lines));
    }
    let mut out = listed();
    for ((soundness, number, word, name), case) in found.0 {
        out += &format!("# {}, {name}: {number} where the Rust {}\n", soundness.word(), said(&word));
        for line in &case.lines {
            out += &format!("{line}\n");
        }
        out += &format!("= {}\n~ {}\n", case.paper, case.rust);
    }
    out
}

fn said(word: &str) -> String {
    match word {
        "panics" => "panics".to_string(),
        "ok" | "over" => format!("goes on ({word})"),
        "cannot" => "cannot be handed it".to_string(),
        _ => format!("says {word}"),
    }
}
