//! Measures the store beside triple_arena and slotmap; `bench/compare.sh` builds and starts it.
//!
//!   nektawul-bench times PROGRAM FOLDER     ratios of times; PROGRAM is the Rattle program `bench_calls`, FOLDER takes sequence files
//!   nektawul-bench counts PROGRAM FOLDER    instructions, by callgrind
//!   nektawul-bench one SIDE WORK PLACES STRIDE TURNS
//!   nektawul-bench one SIDE sequence FILE TURNS    one work on one side; prints its sum
mod counts;
mod sequence;
mod side;
mod store;
mod times;
mod work;

use std::{env, path::Path, process::ExitCode};

use side::{Inside, Played, SIDES};
use work::Size;

const WORKS: [&str; 13] = [
    "get",
    "stale",
    "put",
    "churn",
    "invalidate",
    "insert",
    "drain",
    "walk",
    "order",
    "audit",
    "compress",
    "copy",
    "transfer",
];

fn played(words: &[&str]) -> Option<Played> {
    match words {
        ["sequence", file, turns] => {
            let commands = Path::new(file).file_stem()?.to_str()?.parse().ok()?;
            Some(Played::Sequence { commands, turns: turns.parse().ok()? })
        }
        [name, places, stride, turns] => {
            let name = WORKS.into_iter().find(|work| work == name)?;
            let (places, stride) = (places.parse().ok()?, stride.parse().ok()?);
            Some(Played::Work(name, Size { places, stride, turns: turns.parse().ok()? }))
        }
        _ => None,
    }
}

fn one(side: &str, words: &[&str]) -> Option<u64> {
    let (_, side) = SIDES.into_iter().find(|&(name, _)| name == side)?;
    played(words)?.play(side)
}

fn main() -> ExitCode {
    let words: Vec<String> = env::args().skip(1).collect();
    let words: Vec<&str> = words.iter().map(String::as_str).collect();
    match words[..] {
        ["times", program, folder] => times::print(&Inside { program: program.into(), folder: folder.into() }),
        ["counts", program, folder] => counts::print(&Inside { program: program.into(), folder: folder.into() }),
        ["one", side, ref rest @ ..] => match one(side, rest) {
            Some(sum) => println!("{sum}"),
            None => return usage(),
        },
        _ => return usage(),
    }
    ExitCode::SUCCESS
}

fn usage() -> ExitCode {
    eprintln!("usage: see bench/src/main.rs");
    ExitCode::from(2)
}
