//! The sequence's check, step and run: document 01's worked sequence, each refusal, the limits.
use std::fmt::{Debug, Write};

use nektawul::{Answer, Checked, Header, Ptr, Refusal, Row, State, StepAnswer, Tables, Tally, raw};

use crate::lent::{Words, lend, row, unfit_tables};

/// Document 01's worked sequence, and what `runseq` prints of it.
const WORKED: &[u8] = include_bytes!("../../../../crates/runseq/data/worked.seq");
const LISTING: &str = include_str!("../../../../crates/runseq/stdout");

const NAMES: [&str; 10] =
    ["insert", "remove", "invalidate", "get", "clear", "order", "compress", "audit", "setgen", "takeinx"];

/// A command's sixteen bytes.
fn command(code: u8, flag: u8, index: u16, generation: u32, value: u64) -> Vec<u8> {
    let mut bytes = vec![code, flag];
    bytes.extend(index.to_le_bytes());
    bytes.extend(generation.to_le_bytes());
    bytes.extend(value.to_le_bytes());
    bytes
}

fn insert(value: u64) -> Vec<u8> {
    command(1, 0, 0, 0, value)
}

/// A file for a store of so many places.
fn file(places: u16, commands: &[Vec<u8>]) -> Vec<u8> {
    let [low, high] = places.to_le_bytes();
    [&[b'T', b'T', b'S', 1, 0, low, high, 0][..], &commands.concat()].concat()
}

/// The worked sequence with one byte changed.
fn changed(at: usize, byte: u8) -> Vec<u8> {
    let mut bytes = WORKED.to_vec();
    bytes[at] = byte;
    bytes
}

/// A sequence under way: its file, its store, the next command's number and the journal.
#[derive(Clone, PartialEq, Debug)]
struct Play {
    file: Vec<u8>,
    words: Words,
    next: u16,
    rows: Vec<Row>,
}

impl Play {
    fn of(file: &[u8], words: Words) -> Self {
        Self { file: file.to_vec(), words, next: 1, rows: vec![Row::default(); 4] }
    }

    fn new(file: &[u8]) -> Self {
        Self::of(file, Words::new(raw::lent_places(file)))
    }

    fn check(&mut self) -> Checked {
        let Self { file, words, next, .. } = self;
        words.lend(|_, t| raw::check(*next, file, t.view()))
    }

    /// Lends the state, the file, the tables and the journal to a call.
    fn lend<T: PartialEq + Debug>(&mut self, call: impl Fn(&mut State, &[u8], &mut Tables<'_>, &mut [Row]) -> T) -> T {
        let Self { file, words, next, rows } = self;
        let (given, after) = lend([words], rows, |[(h, mut t)], rows| {
            let mut state = State { next: *next, header: *h };
            let given = call(&mut state, file, &mut t, rows);
            *h = state.header;
            (given, state.next)
        });
        *next = after;
        given
    }

    fn step(&mut self) -> StepAnswer {
        self.lend(raw::step)
    }

    fn run(&mut self) -> (Checked, Tally) {
        self.lend(raw::run)
    }

    /// The code of the command that the last step ran.
    fn code(&self) -> usize {
        self.file[8 + 16 * (usize::from(self.next) - 2)].into()
    }

    /// Steps to the end: the listing's lines.
    fn list(&mut self) -> String {
        let mut lines = String::new();
        while let StepAnswer::Ran(answer) = self.step() {
            let Header { len, m, root, generation } = self.words.header;
            let word = NAMES[self.code() - 1];
            writeln!(lines, "{word} {} {len} {m} {root} {generation}", fields(answer)).expect("a string");
        }
        lines
    }
}

/// An answer in the listing.
fn fields(answer: Answer) -> String {
    match answer {
        Answer::Done(p, value) => format!("ok {} {} {value}", p.index, p.generation),
        Answer::Overflow(p, value) => format!("over {} {} {value}", p.index, p.generation),
        Answer::Refused(refusal) => format!("no{} 0 0 0", refusal.number()),
    }
}

/// The listing's last line.
fn sum(tally: Tally) -> String {
    let counts = [0, 1, 2].map(|kind| tally.iter().map(|row| row[kind]).sum::<u32>());
    format!("sum {} {} {}\n", counts[0], counts[1], counts[2])
}

#[test]
fn worked_sequence_step_by_step() {
    let mut play = Play::new(WORKED);
    assert_eq!(play.words, Words::new(3));
    assert_eq!(play.check(), Checked::default());
    assert_eq!(play.list() + "sum 12 0 2\n", LISTING);
    assert_eq!(play.next, 15);
    // Past the last command a step is done and changes nothing.
    let after = play.clone();
    assert_eq!(play.step(), StepAnswer::End);
    assert_eq!(play, after);
}

#[test]
fn worked_sequence_run() {
    let mut by_steps = Play::new(WORKED);
    let lines = by_steps.list();
    let mut play = Play::new(WORKED);
    let (checked, tally) = play.run();
    assert_eq!(checked, Checked::default());
    assert_eq!(lines + &sum(tally), LISTING);
    let expected = [[4, 0, 1], [3, 0, 0], [1, 0, 0], [1, 0, 1], [1, 0, 0], [0; 3], [2, 0, 0], [0; 3], [0; 3], [0; 3]];
    assert_eq!(tally, expected);
    assert_eq!(play, by_steps);
}

#[test]
fn a_run_goes_on_from_a_later_number() {
    let mut play = Play::new(WORKED);
    for _ in 0..4 {
        play.step();
    }
    let (checked, tally) = play.run();
    assert_eq!((checked, play.next), (Checked::default(), 15));
    assert_eq!(sum(tally), "sum 9 0 1\n");
    let (checked, tally) = play.run();
    assert_eq!((checked, tally), (Checked::default(), Tally::default()));
}

/// A file, or a next number, that is turned down: by check, step and run alike, and nothing is changed.
fn turned_down(mut play: Play, refusal: u8, fault: u16) {
    let before = play.clone();
    let expected = Checked { refusal, fault };
    assert_eq!(play.check(), expected);
    assert_eq!(play.step(), StepAnswer::TurnedDown(Refusal::of(refusal).expect("a refusal"), fault));
    assert_eq!(play.run(), (expected, Tally::default()));
    assert_eq!(play, before);
}

#[test]
fn refusal_1_comes_first() {
    for words in unfit_tables() {
        turned_down(Play::of(WORKED, words.clone()), 1, 0);
        turned_down(Play::of(&[], words), 1, 0);
    }
}

#[test]
fn refusal_10_the_length() {
    for length in [0, 1, 6, 7, 9, 23, 25] {
        turned_down(Play::of(&WORKED[..length], Words::new(3)), 10, 0);
    }
    turned_down(Play::new(&file(1, &vec![insert(1); 4096])), 10, 0);
}

#[test]
fn refusal_11_the_head() {
    for at in [0, 1, 2, 3, 4, 7] {
        turned_down(Play::of(&changed(at, 9), Words::new(3)), 11, 0);
    }
}

#[test]
fn refusal_12_the_places_and_the_next_number() {
    turned_down(Play::of(&file(1025, &[]), Words::new(1024)), 12, 0);
    turned_down(Play::of(WORKED, Words::new(2)), 12, 0);
    turned_down(Play::of(WORKED, Words::new(0)), 12, 0);
    for next in [0, 16, 65535] {
        turned_down(Play { next, ..Play::new(WORKED) }, 12, 0);
    }
}

/// The fields that each command may have.
const FIELDS: [&[&str]; 10] = [
    &["value"],
    &["index", "generation"],
    &["index", "generation"],
    &["index", "generation"],
    &[],
    &[],
    &["flag"],
    &[],
    &["generation"],
    &["index"],
];

/// A command with one field that is not zero: the smallest such and the largest.
fn with_field(code: u8, field: &str) -> [Vec<u8>; 2] {
    match field {
        "flag" => [1, u8::MAX].map(|flag| command(code, flag, 0, 0, 0)),
        "index" => [1, u16::MAX].map(|index| command(code, 0, index, 0, 0)),
        "generation" => [1, u32::MAX].map(|generation| command(code, 0, 0, generation, 0)),
        _ => [1, u64::MAX].map(|value| command(code, 0, 0, 0, value)),
    }
}

/// A command that is accepted.
fn accepted(command: Vec<u8>) {
    assert_eq!(Play::new(&file(2, &[insert(5), command.clone()])).check(), Checked::default(), "{command:?}");
}

/// A command that is turned down: alone, and as the first of two such between others.
fn refused(command: Vec<u8>) {
    turned_down(Play::new(&file(2, std::slice::from_ref(&command))), 13, 1);
    turned_down(Play::new(&file(2, &[insert(5), command.clone(), command, insert(6)])), 13, 2);
}

#[test]
fn refusal_13_unknown_commands() {
    for code in [0, 11, 255] {
        refused(command(code, 0, 0, 0, 0));
    }
}

#[test]
fn refusal_13_fields() {
    for (code, permitted) in (1..).zip(FIELDS) {
        accepted(command(code, 0, 0, 0, 0));
        for field in ["flag", "index", "generation", "value"] {
            let [small, large] = with_field(code, field);
            let tried = if permitted.contains(&field) { accepted } else { refused };
            tried(small);
            // Of a flag more than 1 is refused.
            if field == "flag" { refused(large) } else { tried(large) }
        }
    }
    refused(command(7, 2, 0, 0, 0));
}

#[test]
fn a_file_without_commands() {
    let mut play = Play::new(&file(2, &[]));
    assert_eq!(play.check(), Checked::default());
    assert_eq!(play.step(), StepAnswer::End);
    assert_eq!(play.run(), (Checked::default(), Tally::default()));
    assert_eq!(play.next, 1);
}

#[test]
fn the_longest_file_on_the_largest_store() {
    let mut play = Play::new(&file(1024, &vec![insert(1); 4095]));
    let (checked, tally) = play.run();
    assert_eq!((checked, tally[0]), (Checked::default(), [1024, 0, 3071]));
    assert_eq!(play.next, 4096);
    assert_eq!(play.step(), StepAnswer::End);
}

#[test]
fn every_command() {
    let commands = [
        insert(10),
        insert(20),
        command(9, 0, 0, u32::MAX, 0),
        command(3, 0, 1, 2, 0),
        command(9, 0, 0, u32::MAX, 0),
        command(2, 0, 2, 2, 0),
        command(10, 0, 1, 0, 0),
        command(6, 0, 0, 0, 0),
        command(8, 0, 0, 0, 0),
        command(9, 0, 0, 1, 0),
        command(8, 0, 0, 0, 0),
        command(7, 0, 0, 0, 0),
        command(10, 0, 1, 0, 0),
        command(9, 0, 0, 0, 0),
        command(5, 0, 0, 0, 0),
    ];
    let lines = "\
insert ok 1 2 10 1 1 0 2
insert ok 2 2 20 2 2 0 2
setgen ok 0 0 0 2 2 0 4294967295
invalidate over 1 2 0 2 2 0 2
setgen ok 0 0 0 2 2 0 4294967295
remove over 2 2 20 1 1 0 2
takeinx ok 1 2 10 0 0 0 3
order ok 0 0 0 0 0 0 3
audit ok 0 0 0 0 0 0 3
setgen ok 0 0 0 0 0 0 1
audit ok 0 0 1 0 0 0 1
compress no4 0 0 0 0 0 0 1
takeinx no6 0 0 0 0 0 0 1
setgen no3 0 0 0 0 0 0 1
clear ok 0 0 0 0 0 0 1
";
    assert_eq!(Play::new(&file(2, &commands)).list(), lines);
}

#[test]
fn a_refused_command_moves_the_state_on() {
    let mut play = Play::of(WORKED, Words::of("0 0 0 0 [0:0:0 0:0:0 0:0:0]"));
    let before = play.words.clone();
    assert_eq!(play.step(), StepAnswer::Ran(Answer::Refused(Refusal::HeaderUnfit)));
    assert_eq!((play.next, &play.words), (2, &before));
    // Past the last command nothing of the header is tested.
    play.next = 15;
    assert_eq!(play.step(), StepAnswer::End);
}

#[test]
fn compress_in_a_sequence_writes_the_journal() {
    let bytes = file(2, &[insert(10), insert(20), command(2, 0, 1, 2, 0), command(7, 0, 0, 0, 0)]);
    let mut play = Play::new(&bytes);
    play.run();
    let mut expected = vec![Row::default(); 4];
    expected[0] = row((2, 2), (1, 4), false);
    assert_eq!(play.rows, expected);
    let mut short = Play { rows: vec![], ..Play::new(&bytes) };
    let (_, tally) = short.run();
    assert_eq!(tally[6], [0, 0, 1]);
    assert_eq!(short.words.to_string(), "1 2 1 3 [0:1:0 2:0:20]");
}

#[test]
fn places_to_lend() {
    assert_eq!(raw::lent_places(WORKED), 3);
    assert_eq!(raw::lent_places(&[]), 1024);
    assert_eq!(raw::lent_places(&WORKED[..6]), 1024);
    assert_eq!(raw::lent_places(&WORKED[..7]), 3);
    for (places, lent) in [(0, 0), (1024, 1024), (1025, 1024), (65535, 1024)] {
        assert_eq!(raw::lent_places(&file(places, &[])), lent);
    }
}

#[test]
fn a_handle_in_a_sequence_is_one_of_the_store() {
    let mut play = Play::new(&file(1, &[insert(7)]));
    assert_eq!(play.step(), StepAnswer::Ran(Answer::Done(Ptr::new(1, 2), 7)));
    let seen = play.words.lend(|h, t| raw::get(Ptr::new(1, 2), h, t.view()));
    assert_eq!(seen, Answer::Done(Ptr::new(1, 2), 7));
}
