//! Instructions of a turn, by valgrind's callgrind: the difference of two runs, so that what comes before the first turn is left out.
use std::{env, process::Command};

use crate::{
    side::{Inside, Played, SIDES, Side},
    work::Size,
};

/// All instructions of a run.
fn instructions(inside: &Inside, side: Side, played: Played) -> f64 {
    let mut command = Command::new("valgrind");
    command.args(["--tool=callgrind", "--callgrind-out-file=/dev/null"]);
    if side == Side::Inside {
        command.arg(&inside.program);
    } else {
        let (name, _) = SIDES.into_iter().find(|&(_, s)| s == side).expect("every side has a name");
        command.arg(env::current_exe().expect("this program has a path")).args(["one", name]);
    }
    let output = command.args(played.arguments(&inside.folder)).output().expect("valgrind is there");
    let said = String::from_utf8_lossy(&output.stderr);
    let collected =
        said.lines().find_map(|line| line.split_once("Collected : ")).expect("callgrind says what it collected");
    collected.1.trim().parse().expect("it is a number")
}

/// Instructions of one turn.
fn a_turn(inside: &Inside, side: Side, played: Played) -> f64 {
    let few = instructions(inside, side, played.with_turns(played.turns() / 4));
    let all = instructions(inside, side, played);
    (all - few) / f64::from(played.turns() - played.turns() / 4)
}

const SHOWN: [Side; 6] = [Side::Inside, Side::Library, Side::Arena, Side::ArenaCalled, Side::Slots, Side::SlotsCalled];

/// A row: the instructions of a turn on each side, divided by its parts: calls or places.
fn row(inside: &Inside, name: &'static str, size: Size, parts: usize) {
    let played = Played::Work(name, size);
    print!("| {name} | {} | {} ", size.places, size.live());
    for side in SHOWN {
        match played.known(side) {
            true => print!("| {:.1} ", a_turn(inside, side, played) / parts as f64),
            false => print!("| – "),
        }
    }
    println!("|");
}

fn head(first: &str) {
    println!(
        "| {first} | places | messages | inside | library | triple_arena | triple_arena, called | slotmap | slotmap, called |"
    );
    println!("|---|---|---|---|---|---|---|---|---|");
}

pub fn print(inside: &Inside) {
    head("a turn");
    for name in ["get", "stale", "put", "churn", "invalidate"] {
        for places in [16, 64, 256, 1024] {
            row(inside, name, Size { places, stride: 2, turns: 8192 }, 1);
        }
    }
    println!();
    head("a place");
    for name in ["insert", "drain", "walk", "order", "audit", "compress", "copy", "transfer"] {
        for places in [16, 64, 256, 1024] {
            let turns = (65536 / places) as u32;
            row(inside, name, Size { places, stride: 2, turns }, places);
        }
    }
}
