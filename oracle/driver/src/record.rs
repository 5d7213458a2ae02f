//! The records: samples of the Rust's answers, for programs that replay them where there is no Rust.
use std::{fs, path::PathBuf};

use crate::{
    differences,
    draw::{Terms, calls},
    every, in_repository,
    play::{Judge, Player},
    script::Line,
    sequence::Sequence,
};

/// A line of a record, with the answer under it where it is a call.
fn entry(line: &Line, answer: Option<String>) -> String {
    let answer = answer.map_or(String::new(), |answer| format!("= {answer}\n"));
    format!("{}\n{answer}", line.text())
}

/// A list's lines.
fn listed(terms: Terms) -> String {
    let Terms { seed, places, other_places, near_overflow, .. } = terms;
    let near = if near_overflow { ", generations near the overflow" } else { "" };
    let mut out = format!("# seed {seed}: stores of {places} and {other_places} places{near}\n");
    for (line, answer) in calls(terms).lines {
        out += &entry(&line, answer);
    }
    out
}

/// Every call on every sound store of three places.
fn every_sound_store() -> String {
    let mut out = String::from("# every call on every sound store of three places\n");
    every::sound_stores(3, |lines| {
        let mut player = Player::new(Judge::Both);
        for line in lines {
            out += &entry(line, player.play(line));
        }
    });
    out
}

fn terms(seed: u64, places: u64, other_places: u64, count: usize) -> Terms {
    Terms { seed, places, other_places, near_overflow: false, full: false, count }
}

/// Each record of calls, by its name.
fn records() -> Vec<(&'static str, String)> {
    let small = (0..=6).map(|places| listed(terms(100 + places, places, (3 * places + 1) % 7, 150)));
    let near =
        (1..=4).map(|places| listed(Terms { near_overflow: true, ..terms(200 + places, places, 5 - places, 120) }));
    let full = Terms { full: true, ..terms(301, 1024, 1024, 120) };
    vec![
        ("differences.txt", differences::record()),
        ("every-sound.txt", every_sound_store()),
        ("drawn-small.txt", small.collect()),
        ("drawn-overflow.txt", near.collect()),
        ("drawn-40.txt", listed(terms(300, 40, 30, 300))),
        ("drawn-1024.txt", listed(full)),
    ]
}

/// Each recorded sequence: its name, seed, places, number of commands, and whether generations are near the overflow.
const SEQUENCES: [(&str, u64, u16, usize, bool); 6] = [
    ("drawn-0", 400, 0, 30, false),
    ("drawn-1", 401, 1, 100, true),
    ("drawn-3", 402, 3, 200, false),
    ("drawn-3-overflow", 403, 3, 200, true),
    ("drawn-24", 404, 24, 400, false),
    ("drawn-1024", 406, 1024, 4095, false),
];

/// Every record, by its path in the repository.
fn all() -> Vec<(PathBuf, Vec<u8>)> {
    let in_sequences = |name: String| in_repository("crates/replay_sequences/data").join(name);
    let mut all = Vec::new();
    for (name, text) in records() {
        all.push((in_repository("crates/replay_calls/data").join(name), text.into_bytes()));
    }
    for (name, seed, places, count, near_overflow) in SEQUENCES {
        let sequence = Sequence::drawn(seed, places, count, near_overflow);
        all.push((in_sequences(format!("{name}.seq")), sequence.file()));
        all.push((in_sequences(format!("{name}.txt")), sequence.listing().0.into_bytes()));
    }
    all
}

/// Writes all records.
pub fn write() {
    for (path, bytes) in all() {
        fs::write(&path, bytes).unwrap_or_else(|error| panic!("{}: {error}", path.display()));
    }
}

/// The records that are not what would be written now.
pub fn stale() -> Vec<PathBuf> {
    let all = all().into_iter();
    all.filter(|(path, bytes)| fs::read(path).ok().as_ref() != Some(bytes)).map(|(path, _)| path).collect()
}
