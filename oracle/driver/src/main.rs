//! The unchanged `Arena` of triple_arena 0.15.1 as the judge of the store.
//!
//!   oracle play FILE          plays a script of calls, as `replay_calls` does, and prints the Rust's answers
//!   oracle rust FILE          the same without document 01's refusals: the Rust alone, with its own words and its panics
//!   oracle record             writes the records of `replay_calls` and `replay_sequences` anew
//!   oracle compare [ROUNDS]   holds the records, and lists and sequences drawn at random, against `replay_calls` and `runseq`
mod calls;
mod compare;
mod differences;
mod draw;
mod every;
mod paper;
mod play;
mod record;
mod script;
mod sequence;
mod store;

use std::{
    env, fs,
    path::{Path, PathBuf},
    process::exit,
};

use play::{Judge, Player};

/// A file or folder of the repository.
fn in_repository(path: &str) -> PathBuf {
    Path::new(env!("CARGO_MANIFEST_DIR")).join("../..").join(path)
}

/// A file's text; without it there is nothing to do.
fn read(path: &Path) -> String {
    fs::read_to_string(path).unwrap_or_else(|error| {
        eprintln!("{}: {error}", path.display());
        exit(1)
    })
}

/// Prints the answers of a script.
fn play_file(path: &str, judge: Judge) {
    let mut player = Player::new(judge);
    for (n, line) in read(Path::new(path)).lines().enumerate() {
        match line.chars().next() {
            None | Some('=' | '~') => {}
            Some('#') => println!("{line}"),
            Some(_) => match script::read(line).map(|line| player.play(&line)) {
                None => println!("? {}", n + 1),
                Some(answer) => answer.into_iter().for_each(|answer| println!("{answer}")),
            },
        }
    }
}

fn main() {
    play::hush_answers();
    let words: Vec<String> = env::args().skip(1).collect();
    let words: Vec<&str> = words.iter().map(String::as_str).collect();
    match words[..] {
        ["play", file] => play_file(file, Judge::Both),
        ["rust", file] => play_file(file, Judge::Rust),
        ["record"] => record::write(),
        ["compare"] => compare::all(1),
        ["compare", rounds] => match rounds.parse() {
            Ok(rounds) => compare::all(rounds),
            Err(_) => {
                eprintln!("how many rounds? {rounds}");
                exit(2);
            }
        },
        _ => {
            eprintln!("oracle play FILE | oracle rust FILE | oracle record | oracle compare [ROUNDS]");
            exit(2);
        }
    }
}
