//! Sequence files drawn: valid, damaged, cut, lengthened, and arbitrary bytes.

use crate::calls;
use crate::draw::Draw;
use crate::model::answer::{Handle, Row};
use crate::model::sequence::{self, Command};
use crate::model::store::Store;

/// A file of n commands, each drawn for the store as the commands before it leave it.
fn fitting(d: &mut Draw, s: &Store, seen: &[Handle], n: usize) -> Vec<u8> {
    let mut file = sequence::head(s.generations.len() as u16);
    let (mut s, mut next) = (s.clone(), 1);
    let mut journal: Vec<Row> = (0..d.below(16)).map(|_| calls::row(d)).collect();
    for _ in 0..n {
        file.extend(sequence::bytes(command(d, &s, seen)));
        sequence::step(&mut next, &file, &mut s, &mut journal);
    }
    file
}

fn command(d: &mut Draw, s: &Store, seen: &[Handle]) -> Command {
    let none = Command::default();
    let named = |code, h: Handle| Command { code, index: h.index, generation: h.generation, ..none };
    match d.below(14) {
        0..=4 => Command { code: 1, value: d.value(), ..none },
        5 => named(2, calls::handle(d, s, seen)),
        6 => named(3, calls::handle(d, s, seen)),
        7 => named(4, calls::handle(d, s, seen)),
        8 if d.one_in(2) => Command { code: 5, ..none },
        8 | 9 => Command { code: 6, ..none },
        10 => Command { code: 7, flag: d.below(2) as u8, ..none },
        11 => Command { code: 8, ..none },
        12 => Command { code: 9, generation: calls::given(d, s.header.generation), ..none },
        _ => Command { code: 10, index: calls::handle(d, s, seen).index, ..none },
    }
}

/// A file of about the most commands: a few drawn ones over and over.
fn long(d: &mut Draw, s: &Store, seen: &[Handle]) -> Vec<u8> {
    let some = fitting(d, s, seen, 12);
    let (head, commands) = some.split_at(8);
    let n = d.of(&[4_094, 4_095, 4_096]);
    let bytes = commands.iter().cycle().take(16 * n);
    head.iter().chain(bytes).copied().collect()
}

/// Changes a byte, in the head half of the time.
fn damage(d: &mut Draw, file: &mut [u8]) {
    let end = if d.one_in(2) { file.len().min(8) } else { file.len() };
    let byte = d.below(end);
    file[byte] = if d.one_in(2) { d.word() as u8 } else { file[byte] ^ (1 << d.below(8)) };
}

/// Changes the lowest byte of one field of a command by little.
fn damage_field(d: &mut Draw, file: &mut [u8]) {
    let commands = file.len() / 16;
    if commands > 0 {
        let byte = 8 + 16 * d.below(commands) + d.of(&[0, 1, 2, 4, 8]);
        file[byte] ^= 1 + d.below(3) as u8;
    }
}

fn arbitrary(d: &mut Draw) -> Vec<u8> {
    (0..d.below(60)).map(|_| d.word() as u8).collect()
}

/// A file for a store, or one that is wrong.
pub fn draw(d: &mut Draw, s: &Store, seen: &[Handle]) -> Vec<u8> {
    if d.one_in(1_500) {
        return long(d, s, seen);
    }
    let n = d.below(13);
    let mut file = fitting(d, s, seen, n);
    match d.below(16) {
        0 => damage(d, &mut file),
        1 | 2 => damage_field(d, &mut file),
        3 => file.truncate(d.below(file.len() + 1)),
        4 => file.extend(arbitrary(d)),
        5 => file[5..7].copy_from_slice(&d.index(s.generations.len()).to_le_bytes()),
        6 => return arbitrary(d),
        _ => (),
    }
    file
}
