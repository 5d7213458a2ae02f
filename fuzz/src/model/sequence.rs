//! The sequence file: its check, one step, and the run. The state's header is that of the store.

use super::answer::{told, Answer, Handle, Kind, Outcome, Row};
use super::refusals;
use super::store::{Store, MOST_PLACES};
use super::{audit, single, whole};

const HEAD: usize = 8;
const COMMAND: usize = 16;
const MOST_COMMANDS: usize = 4_095;

/// What the check of a file gave: the refusal or 0, and the command at fault or 0.
#[derive(Clone, Copy, Debug, Default, PartialEq, Eq)]
pub struct Checked {
    pub refusal: u8,
    pub fault: u16,
}

/// Counts by command and by answer: done, overflow, refused.
pub type Tally = [[u32; 3]; 10];

#[derive(Clone, Copy, Debug, Default, PartialEq, Eq)]
pub struct Command {
    pub code: u8,
    pub flag: u8,
    pub index: u16,
    pub generation: u32,
    pub value: u64,
}

/// The largest that a field may be; 0 for one that the command does not use.
struct Permitted {
    flag: u8,
    index: u16,
    generation: u32,
    value: u64,
}

const fn permitted(flag: u8, index: u16, generation: u32, value: u64) -> Permitted {
    Permitted { flag, index, generation, value }
}

/// A row for each command from 1.
const TABLE: [Permitted; 10] = [
    permitted(0, 0, 0, u64::MAX),
    permitted(0, u16::MAX, u32::MAX, 0),
    permitted(0, u16::MAX, u32::MAX, 0),
    permitted(0, u16::MAX, u32::MAX, 0),
    permitted(0, 0, 0, 0),
    permitted(0, 0, 0, 0),
    permitted(1, 0, 0, 0),
    permitted(0, 0, 0, 0),
    permitted(0, 0, u32::MAX, 0),
    permitted(0, u16::MAX, 0, 0),
];

/// The little-endian number in these bytes.
fn number(bytes: &[u8]) -> u64 {
    bytes.iter().rev().fold(0, |sum, &byte| sum << 8 | byte as u64)
}

fn places(file: &[u8]) -> usize {
    number(&file[5..7]) as usize
}

fn commands(file: &[u8]) -> usize {
    (file.len() - HEAD) / COMMAND
}

/// Command i, counted from 1.
fn command(file: &[u8], i: usize) -> Command {
    let at = HEAD + COMMAND * (i - 1);
    let bytes = &file[at..at + COMMAND];
    Command {
        code: bytes[0],
        flag: bytes[1],
        index: number(&bytes[2..4]) as u16,
        generation: number(&bytes[4..8]) as u32,
        value: number(&bytes[8..16]),
    }
}

fn is_permitted(c: Command) -> bool {
    let row = (c.code as usize).checked_sub(1).and_then(|i| TABLE.get(i));
    row.is_some_and(|p| c.flag <= p.flag && c.index <= p.index && c.generation <= p.generation && c.value <= p.value)
}

/// A length of 8 + 16n leaves 8 when divided by 16.
fn bad_length(file: &[u8]) -> bool {
    file.len() < HEAD || file.len() % COMMAND != HEAD || commands(file) > MOST_COMMANDS
}

fn bad_head(file: &[u8]) -> bool {
    file[..3] != *b"TTS" || number(&file[3..5]) != 1 || file[7] != 0
}

fn bad_places_or_next(file: &[u8], s: &Store, next: u16) -> bool {
    let c = places(file);
    c > MOST_PLACES || c != s.capacity() || next == 0 || next as usize > commands(file) + 1
}

/// 1 and 10 to 13, the whole file.
pub fn check(next: u16, file: &[u8], s: &Store) -> Checked {
    let refused = |refusal| Checked { refusal, fault: 0 };
    if refusals::tables(s).is_err() {
        return refused(1);
    }
    if bad_length(file) {
        return refused(10);
    }
    if bad_head(file) {
        return refused(11);
    }
    if bad_places_or_next(file, s, next) {
        return refused(12);
    }
    match (1..=commands(file)).find(|&i| !is_permitted(command(file, i))) {
        Some(i) => Checked { refusal: 13, fault: i as u16 },
        None => Checked::default(),
    }
}

/// How many entries the lent tables have: the file's C, 1,024 where it is larger or not there.
pub fn lent_places(file: &[u8]) -> usize {
    if file.len() < 7 {
        return MOST_PLACES;
    }
    places(file).min(MOST_PLACES)
}

/// The call of a command that the check let through.
fn perform(c: Command, s: &mut Store, journal: &mut [Row]) -> Outcome {
    let handle = Handle { index: c.index, generation: c.generation };
    match c.code {
        1 => single::insert_within_capacity(s, c.value),
        2 => single::remove(s, handle),
        3 => single::invalidate(s, handle),
        4 => single::get(s, handle),
        5 => whole::clear(s),
        6 => whole::order(s),
        7 => whole::compress(s, c.flag == 1, journal),
        8 => audit::audit(s).0,
        9 => single::set_generation(s, c.generation),
        10 => single::remove_inx(s, c.index),
        _ => unreachable!("a command that the check turns down"),
    }
}

/// Performs the next command and moves the state on, refused or not. Also gives the command's code.
fn perform_next(next: &mut u16, file: &[u8], s: &mut Store, journal: &mut [Row]) -> (u8, Answer) {
    let c = command(file, *next as usize);
    *next += 1;
    (c.code, told(perform(c, s, journal)))
}

fn past_the_last(next: u16, file: &[u8]) -> bool {
    next as usize > commands(file)
}

/// One step: turned down, past the last command, or its command's answer.
pub fn step(next: &mut u16, file: &[u8], s: &mut Store, journal: &mut [Row]) -> Answer {
    let checked = check(*next, file, s);
    if checked.refusal != 0 {
        return Answer::bare(Kind::TurnedDown(checked.refusal, checked.fault));
    }
    if past_the_last(*next, file) {
        return Answer::bare(Kind::End);
    }
    perform_next(next, file, s, journal).1
}

/// The column of the tally that a command's answer counts in.
fn column(answer: Answer) -> usize {
    match answer.kind {
        Kind::Done => 0,
        Kind::Overflow => 1,
        _ => 2,
    }
}

/// All steps to the last command, and their tally; none where the file is refused.
pub fn run(next: &mut u16, file: &[u8], s: &mut Store, journal: &mut [Row]) -> (Checked, Tally) {
    let mut tally = [[0; 3]; 10];
    let checked = check(*next, file, s);
    while checked.refusal == 0 && !past_the_last(*next, file) {
        let (code, answer) = perform_next(next, file, s, journal);
        tally[code as usize - 1][column(answer)] += 1;
    }
    (checked, tally)
}

/// The bytes of a command, as it stands in a file.
pub fn bytes(c: Command) -> Vec<u8> {
    let mut bytes = vec![c.code, c.flag];
    bytes.extend(c.index.to_le_bytes());
    bytes.extend(c.generation.to_le_bytes());
    bytes.extend(c.value.to_le_bytes());
    bytes
}

/// The head of a file.
pub fn head(places: u16) -> Vec<u8> {
    let mut bytes = b"TTS\x01\x00".to_vec();
    bytes.extend(places.to_le_bytes());
    bytes.push(0);
    bytes
}
