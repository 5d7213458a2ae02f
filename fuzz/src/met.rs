//! What was met, by call and by answer, held against what document 01 lists: a run that misses an answer has not tried it.

use crate::call::{Call, Reply};
use crate::clauses::{Played, CLAUSES};
use crate::model::answer::{Answer, Kind};
use crate::model::sequence::Tally;

/// Done, done without a handle, overflow, a step past the last, and the refusals.
const COLUMNS: [&str; 17] =
    ["done", "none", "over", "end", "1", "2", "3", "4", "5", "6", "7", "8", "9", "10", "11", "12", "13"];

/// Every call's answers, from document 01's calls and its list of refusals. A step's 1 and 10 to 13 turn the step itself down.
const EXPECTED: [(&str, &str); 25] = [
    ("new", "done"),
    ("insert_within_capacity", "done 1 2 4 7"),
    ("insert_reallocating", "done 1 2 4 7 9"),
    ("remove", "done over 1 2 3 4 6"),
    ("remove_inx", "done over 1 2 3 4 6"),
    ("invalidate", "done over 1 2 3 6"),
    ("get", "done 1 2 3 6"),
    ("put", "done 1 2 3 6"),
    ("clear", "done over 1 2"),
    ("order", "done 1 2 4"),
    ("compress", "done over 1 2 4 5"),
    ("reserve", "done 1 2 4 8 9"),
    ("transfer", "done 1 2 3 4 5 9"),
    ("copy", "done 1 2 4 9"),
    ("advance", "done none 1 2"),
    ("drain", "done none over 1 2 4"),
    ("find_first", "done none 1 2"),
    ("find_last", "done none 1 2"),
    ("set_generation", "done 1 2 3"),
    ("inc_generation", "done over 1 2"),
    ("audit", "done 1"),
    ("check", "done 1 10 11 12 13"),
    ("lent_places", "done"),
    ("step", "done over end 1 2 3 4 5 6 7 10 11 12 13"),
    ("run", "done 1 10 11 12 13"),
];

/// The commands, and which of done, overflow and refused each can come to in a run.
const COMMANDS: [(&str, [bool; 3]); 10] = [
    ("insert", [true, false, true]),
    ("remove", [true, true, true]),
    ("invalidate", [true, true, true]),
    ("get", [true, false, true]),
    ("clear", [true, true, true]),
    ("order", [true, false, true]),
    ("compress", [true, true, true]),
    ("audit", [true, false, false]),
    ("setgen", [true, false, true]),
    ("takeinx", [true, true, true]),
];

pub struct Met {
    pub calls: u64,
    answers: [[u64; COLUMNS.len()]; EXPECTED.len()],
    verdicts: [u64; 10],
    commands: [[u64; 3]; 10],
    clauses: [u64; CLAUSES.len()],
}

fn refused(number: u8) -> usize {
    number as usize + 3
}

fn checked(number: u8) -> usize {
    if number == 0 {
        0
    } else {
        refused(number)
    }
}

/// Whether the call's done answer has a handle, if it found one.
fn finds(call: &Call) -> bool {
    matches!(call, Call::Advance | Call::Drain | Call::FindFirst | Call::FindLast)
}

fn answered(call: &Call, answer: &Answer) -> usize {
    match answer.kind {
        Kind::Done => (finds(call) && answer.handle.index == 0) as usize,
        Kind::Overflow => 2,
        Kind::End => 3,
        Kind::Refused(number) | Kind::TurnedDown(number, _) => refused(number),
    }
}

fn column(call: &Call, reply: &Reply) -> usize {
    match reply {
        Reply::Nothing | Reply::Places(_) => 0,
        Reply::Answer(answer) | Reply::Audit(answer, _) => answered(call, answer),
        Reply::Checked(found) | Reply::Run(found, _) => checked(found.refusal),
    }
}

fn can_be(expected: &str, column: &str) -> bool {
    expected.split(' ').any(|name| name == column)
}

/// One line where what was met and what can be are not the same.
fn fault(name: &str, answer: &str, met: u64, can_be: bool) -> Option<String> {
    match (met, can_be) {
        (0, true) => Some(format!("{name}: {answer} was never met")),
        (1.., false) => Some(format!("{name}: {answer} was met, which document 01 does not list")),
        _ => None,
    }
}

fn row(name: &str) -> usize {
    EXPECTED.iter().position(|(row, _)| *row == name).expect("every call has a row")
}

impl Met {
    pub fn nothing() -> Met {
        Met {
            calls: 0,
            answers: [[0; COLUMNS.len()]; EXPECTED.len()],
            verdicts: [0; 10],
            commands: [[0; 3]; 10],
            clauses: [0; CLAUSES.len()],
        }
    }

    pub fn count(&mut self, played: &Played) {
        self.calls += 1;
        self.answers[row(played.call.name())][column(played.call, played.reply)] += 1;
        match played.reply {
            Reply::Audit(answer, _) if answer.kind == Kind::Done => self.verdicts[answer.value as usize] += 1,
            Reply::Run(_, tally) => self.add(tally),
            _ => (),
        }
        for (count, (_, holds)) in self.clauses.iter_mut().zip(&CLAUSES) {
            *count += holds(played) as u64;
        }
    }

    fn add(&mut self, tally: &Tally) {
        let counts = tally.iter().flatten();
        for (sum, &count) in self.commands.iter_mut().flatten().zip(counts) {
            *sum += count as u64;
        }
    }

    /// What was never met or should not have been; nothing if the run is whole.
    pub fn faults(&self) -> Vec<String> {
        let answers = EXPECTED.iter().zip(&self.answers).flat_map(|((name, expected), counts)| {
            let cells = COLUMNS.iter().zip(counts);
            cells.filter_map(move |(column, &met)| fault(name, column, met, can_be(expected, column)))
        });
        let verdicts =
            self.verdicts.iter().enumerate().filter_map(|(v, &met)| fault("verdict", &v.to_string(), met, true));
        let commands = COMMANDS.iter().zip(&self.commands).flat_map(|((name, expected), counts)| {
            let cells = ["done", "over", "refused"].iter().zip(counts.iter().zip(expected));
            cells.filter_map(move |(column, (&met, &can_be))| fault(&format!("run's {name}"), column, met, can_be))
        });
        let clauses =
            CLAUSES.iter().zip(&self.clauses).filter_map(|((name, _), &met)| fault("clause", name, met, true));
        answers.chain(verdicts).chain(commands).chain(clauses).collect()
    }

    /// Steps that were turned down: a command's own refusals are 2 to 9.
    fn turned_down(&self) -> u64 {
        [1, 10, 11, 12, 13].iter().map(|&number| self.answers[row("step")][refused(number)]).sum()
    }

    pub fn table(&self) -> String {
        let line = |name: &str, cells: Vec<String>| {
            let cells: String = cells.iter().map(|cell| format!("{cell:>8}")).collect();
            format!("{name:<24}{cells}\n")
        };
        let numbers =
            |counts: &[u64]| counts.iter().map(|&n| if n == 0 { "-".into() } else { n.to_string() }).collect();
        let mut text = line("call", COLUMNS.map(String::from).to_vec());
        for ((name, _), counts) in EXPECTED.iter().zip(&self.answers) {
            text += &line(name, numbers(counts));
        }
        text += &format!("steps turned down: {}\n", self.turned_down());
        text += &line("verdicts 0 to 9", numbers(&self.verdicts));
        text += &line("in runs", vec!["done".into(), "over".into(), "refused".into()]);
        for ((name, _), counts) in COMMANDS.iter().zip(&self.commands) {
            text += &line(name, numbers(counts));
        }
        for ((name, _), count) in CLAUSES.iter().zip(&self.clauses) {
            text += &format!("{count:>8}  {name}\n");
        }
        text
    }
}
