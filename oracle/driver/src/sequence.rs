//! Sequence files: drawn at random, and listed as document 01 lists them. The store's answers are the Rust's.
use std::fmt::Write;

use crate::{
    calls::Answer,
    draw::{COMMANDS, List},
    play::{Judge, Player},
    script::{Code, Code::*, Line},
};

/// The commands: code in the file, word in the listing, call of the script.
const WORDS: [(u8, &str, Code); 10] = [
    (1, "insert", InsertWithinCapacity),
    (2, "remove", Remove),
    (3, "invalidate", Invalidate),
    (4, "get", Get),
    (5, "clear", Clear),
    (6, "order", Order),
    (7, "compress", Compress),
    (8, "audit", Audit),
    (9, "setgen", SetGeneration),
    (10, "takeinx", RemoveInx),
];

/// The journal that a run is lent: 1,024 rows.
const ROWS: [u64; 7] = [1024, 1024, 1024, 1024, 1024, 0, 0];

/// A command's sixteen bytes.
fn bytes(line: &Line) -> [u8; 16] {
    let w = &line.words;
    let &(code, _, _) = WORDS.iter().find(|row| row.2 == line.code).expect("it is a command");
    let (flag, index, generation, value) = match line.code {
        InsertWithinCapacity => (0, 0, 0, w[0]),
        Compress => (w[0], 0, 0, 0),
        SetGeneration => (0, 0, w[0], 0),
        RemoveInx => (0, w[0], 0, 0),
        Remove | Invalidate | Get => (0, w[0], w[1], 0),
        _ => (0, 0, 0, 0),
    };
    let mut out = [0; 16];
    out[0] = code;
    out[1] = flag as u8;
    out[2..4].copy_from_slice(&(index as u16).to_le_bytes());
    out[4..8].copy_from_slice(&(generation as u32).to_le_bytes());
    out[8..].copy_from_slice(&value.to_le_bytes());
    out
}

/// A sequence of commands on a new store.
pub struct Sequence {
    pub places: u16,
    pub commands: Vec<Line>,
}

impl Sequence {
    pub fn drawn(seed: u64, places: u16, count: usize, near_overflow: bool) -> Self {
        let mut list = List::new(seed, COMMANDS, near_overflow);
        list.play(New, false, &[places.into()]);
        list.play(Journal, false, &ROWS);
        for _ in 0..count {
            list.draw(false);
        }
        let commands = list.lines.drain(2..).map(|(line, _)| line).collect();
        Self { places, commands }
    }

    pub fn file(&self) -> Vec<u8> {
        let mut file = b"TTS\x01\x00".to_vec();
        file.extend(self.places.to_le_bytes());
        file.push(0);
        file.extend(self.commands.iter().flat_map(bytes));
        file
    }

    /// The listing, and how many answers were the Rust's and document 01's.
    pub fn listing(&self) -> (String, u64, u64) {
        let mut player = Player::new(Judge::Both);
        player.play(&Line::new(New, false, &[self.places.into()]));
        player.play(&Line::new(Journal, false, &ROWS));
        let before = player.counts;
        let mut out = String::new();
        let mut sums = [0; 3];
        for line in &self.commands {
            let outcome = player.outcome(line).expect("the Rust holds every store of a sequence");
            let &(_, word, _) = WORDS.iter().find(|row| row.2 == line.code).expect("it is a command");
            let (kind, result, shown) = match outcome.answer {
                Answer::Done(index, generation, value) => (0, "ok".to_string(), (index, generation, value)),
                Answer::Overflow(index, generation, value) => (1, "over".to_string(), (index, generation, value)),
                Answer::Refused(number, _) => (2, format!("no{number}"), (0, 0, 0)),
                Answer::Panicked => (2, "panics".to_string(), (0, 0, 0)),
            };
            sums[kind] += 1;
            let h = player.store.header;
            let (index, generation, value) = shown;
            writeln!(out, "{word} {result} {index} {generation} {value} {} {} {} {}", h.len, h.m, h.root, h.generation)
                .expect("a string takes all");
        }
        writeln!(out, "sum {} {} {}", sums[0], sums[1], sums[2]).expect("a string takes all");
        (out, player.counts.rust - before.rust, player.counts.paper - before.paper)
    }
}
