//! Times, each side in turn, several rounds; the least time of each side counts. Only ratios are printed.
use std::time::Instant;

use crate::{
    side::{Inside, Played, Side},
    work::Size,
};

const ROUNDS: usize = 9;

fn seconds(play: impl FnOnce() -> u64) -> (f64, u64) {
    let start = Instant::now();
    let sum = play();
    (start.elapsed().as_secs_f64(), sum)
}

/// The least time of each side. All sides must come to the same sum.
fn least(inside: &Inside, played: Played, sides: &[Side]) -> Vec<f64> {
    let mut least = vec![f64::INFINITY; sides.len()];
    let mut start_up = f64::INFINITY;
    let mut sums = Vec::new();
    for _ in 0..ROUNDS {
        for (best, &side) in least.iter_mut().zip(sides) {
            let (time, sum) = match side {
                Side::Inside => {
                    start_up = seconds(|| inside.play(played.with_turns(0))).0.min(start_up);
                    seconds(|| inside.play(played))
                }
                _ => seconds(|| played.play(side).expect("the side has the call")),
            };
            *best = time.min(*best);
            sums.push(sum);
        }
    }
    assert!(sums.windows(2).all(|pair| pair[0] == pair[1]), "the sides differ: {sums:?}");
    least.iter().zip(sides).map(|(&time, &side)| if side == Side::Inside { time - start_up } else { time }).collect()
}

fn ratio(time: f64, other: f64) -> String {
    format!("{:.2}", time / other)
}

/// How often a work is played so that a round of a side takes some tens of milliseconds.
fn turns(name: &str, size: Size) -> u32 {
    let turns = match name {
        "get" | "stale" | "put" => 30_000_000,
        "churn" | "invalidate" => 8_000_000,
        "walk" => 40_000_000 / (size.places + 4 * size.live()),
        _ => 10_000_000 / size.places,
    };
    turns as u32
}

fn row(inside: &Inside, name: &'static str, places: usize, stride: usize) {
    let size = Size { places, stride, turns: 0 };
    let played = Played::Work(name, size).with_turns(turns(name, size));
    let sides: Vec<Side> =
        [Side::Inside, Side::Arena, Side::Slots, Side::Library, Side::ArenaCalled, Side::SlotsCalled]
            .into_iter()
            .filter(|&side| played.known(side))
            .collect();
    let t = least(inside, played, &sides);
    let time = |side| sides.iter().position(|&s| s == side).map(|i| t[i]);
    let beside = |a, b| match (time(a), time(b)) {
        (Some(a), Some(b)) => ratio(a, b),
        _ => "–".to_string(),
    };
    println!(
        "| {name} | {places} | {} | {} | {} | {} | {} |",
        size.live(),
        beside(Side::Inside, Side::Arena),
        beside(Side::Inside, Side::Slots),
        beside(Side::Library, Side::ArenaCalled),
        beside(Side::Library, Side::SlotsCalled)
    );
}

fn sequence_row(inside: &Inside, commands: usize) {
    let turns = (4_000_000 / (commands + 20)) as u32;
    let played = Played::Sequence { commands, turns };
    let sides = [Side::Inside, Side::Arena, Side::Library, Side::LibraryCalls, Side::ArenaCalled];
    let t = least(inside, played, &sides);
    // A step checks the whole file, so that all steps of a long file take very long: fewer turns.
    let few = played.with_turns((turns as usize * 8 / (commands + 8)).max(1) as u32);
    let s = least(inside, few, &[Side::LibrarySteps, Side::ArenaCalled]);
    println!(
        "| {commands} | {} | {} | {} | {} |",
        ratio(t[0], t[1]),
        ratio(t[2], t[4]),
        ratio(t[3], t[4]),
        ratio(s[0], s[1])
    );
}

pub fn print(inside: &Inside) {
    println!(
        "| work | places | messages | inside / triple_arena | inside / slotmap | library / triple_arena | library / slotmap |"
    );
    println!("|---|---|---|---|---|---|---|");
    for name in ["get", "stale", "churn"] {
        for (places, stride) in [(64, 2), (1024, 4), (1024, 2), (1024, 1)] {
            row(inside, name, places, stride);
        }
    }
    for (name, stride) in [("insert", 1), ("walk", 64), ("walk", 16), ("walk", 2), ("compress", 2)] {
        row(inside, name, 1024, stride);
    }
    for name in ["put", "invalidate", "drain", "order", "audit", "copy", "transfer"] {
        row(inside, name, 1024, 2);
    }
    println!();
    println!(
        "| commands | inside / triple_arena | one run / triple_arena | a call each / triple_arena | a step each / triple_arena |"
    );
    println!("|---|---|---|---|---|");
    for commands in [16, 64, 256, 1024, 4095] {
        sequence_row(inside, commands);
    }
}
