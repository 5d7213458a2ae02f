//! A sequence file, and the ways in which a store plays it. triple_arena has no sequences: it is played by a loop that checks the same file by the
//! same rule, reads its commands and counts the same answers.
use nektawul::{Row, Tally};

use crate::store::{Library, Places};

pub const PLACES: usize = 64;

fn command(code: u8, index: u16, generation: u32, value: u64) -> [u8; 16] {
    let mut bytes = [0; 16];
    bytes[0] = code;
    bytes[2..4].copy_from_slice(&index.to_le_bytes());
    bytes[4..8].copy_from_slice(&generation.to_le_bytes());
    bytes[8..].copy_from_slice(&value.to_le_bytes());
    bytes
}

/// A sequence of n commands on 64 places, each of them done: one message stays and is shown, another is put in and taken out again, and every 64th command is an
/// audit.
pub fn file(n: usize) -> Vec<u8> {
    let mut file = b"TTS\x01\x00".to_vec();
    file.extend((PLACES as u16).to_le_bytes());
    file.push(0);
    for i in 1..=n as u64 {
        file.extend(match i {
            1 => command(1, 0, 0, 1000),
            _ if i % 64 == 0 => command(8, 0, 0, 0),
            _ if i % 4 == 2 => command(1, 0, 0, i),
            _ if i % 4 == 3 => command(10, 2, 0, 0),
            _ => command(4, 1, 2, 0),
        });
    }
    file
}

/// The largest number that a command's flag, index, generation and value may have.
#[rustfmt::skip]
const PERMITTED: [(u8, u16, u32, u64); 10] = [
    (0, 0, 0, u64::MAX),
    (0, u16::MAX, u32::MAX, 0),
    (0, u16::MAX, u32::MAX, 0),
    (0, u16::MAX, u32::MAX, 0),
    (0, 0, 0, 0),
    (0, 0, 0, 0),
    (1, 0, 0, 0),
    (0, 0, 0, 0),
    (0, 0, u32::MAX, 0),
    (0, u16::MAX, 0, 0),
];

struct Command {
    code: u8,
    flag: u8,
    index: u16,
    generation: u32,
    value: u64,
}

fn read(bytes: &[u8; 16]) -> Command {
    let (head, value) = bytes.split_first_chunk::<8>().expect("a command has 16 bytes");
    Command {
        code: head[0],
        flag: head[1],
        index: u16::from_le_bytes([head[2], head[3]]),
        generation: u32::from_le_bytes([head[4], head[5], head[6], head[7]]),
        value: u64::from_le_bytes(value.try_into().expect("eight are left")),
    }
}

fn permitted(c: &Command) -> bool {
    let Some(&(flag, index, generation, value)) = PERMITTED.get(usize::from(c.code).wrapping_sub(1)) else {
        return false;
    };
    c.flag <= flag && c.index <= index && c.generation <= generation && c.value <= value
}

fn perform<S: Places>(c: &Command, store: &mut S, rows: &mut [Row]) -> bool {
    match c.code {
        1 => store.insert(c.value).is_some(),
        2 => S::handle(c.index, c.generation).and_then(|p| store.remove(p)).is_some(),
        3 => S::handle(c.index, c.generation).and_then(|p| store.invalidate(p)).is_some(),
        4 => S::handle(c.index, c.generation).and_then(|p| store.get(p)).is_some(),
        5 => {
            store.clear();
            true
        }
        6 => {
            store.order();
            true
        }
        7 => store.compress(c.flag == 1, rows),
        8 => {
            std::hint::black_box(store.audit());
            true
        }
        9 => store.set_generation(c.generation),
        _ => store.remove_inx(c.index).is_some(),
    }
}

/// The commands of a file, where it is one for as many places.
fn commands(file: &[u8]) -> Option<&[[u8; 16]]> {
    let (head, rest) = file.split_first_chunk::<8>()?;
    let (commands, left) = rest.as_chunks::<16>();
    let fits = left.is_empty() && commands.len() <= 4095;
    let places = (PLACES as u16).to_le_bytes();
    (fits && *head == [b'T', b'T', b'S', 1, 0, places[0], places[1], 0]).then_some(commands)
}

fn done(tally: &Tally) -> u64 {
    tally.iter().map(|row| u64::from(row[0])).sum()
}

/// Checks the whole file and then makes one call for each command; how many were done.
pub fn by_calls<S: Places>(store: &mut S, file: &[u8], rows: &mut [Row]) -> u64 {
    let Some(commands) = commands(file) else { return 0 };
    if !commands.iter().all(|bytes| permitted(&read(bytes))) {
        return 0;
    }
    let mut tally = Tally::default();
    for bytes in commands {
        let c = read(bytes);
        let refused = !perform(&c, store, rows);
        tally[usize::from(c.code) - 1][if refused { 2 } else { 0 }] += 1;
    }
    done(&tally)
}

/// The library's run.
pub fn by_run(store: &mut Library, file: &[u8], rows: &mut [Row]) -> u64 {
    store.0.run(&mut 1, file, rows).map_or(0, |tally| done(&tally))
}

/// The library's step for each command; each checks the whole file.
pub fn by_steps(store: &mut Library, file: &[u8], rows: &mut [Row]) -> u64 {
    let mut next = 1;
    let mut done = 0;
    while let nektawul::StepAnswer::Ran(nektawul::Answer::Done(..)) = store.0.step(&mut next, file, rows) {
        done += 1;
    }
    done
}

/// Plays a file again and again, each time on a new store.
pub fn play<S: Places>(file: &[u8], turns: u32, play: impl Fn(&mut S, &[u8], &mut [Row]) -> u64) -> u64 {
    let mut store = S::new(PLACES);
    let mut rows = vec![Row::default(); 1024];
    let mut sum = 0;
    for _ in 0..turns {
        store.renew();
        sum += play(&mut store, std::hint::black_box(file), &mut rows);
    }
    sum
}
