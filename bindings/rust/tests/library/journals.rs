//! Compress, transfer and copy: the calls that move messages, and the journal's rows.
use nektawul::{Ptr, Row, raw};

use crate::lent::{Words, lend, refuses_unfit, row, told, unfit_headers, unfit_tables};

/// A row that no call here writes.
const OTHER: Row = Row { old: Ptr::new(7, 7), new: Ptr::new(8, 8), overflow: true };

/// Two messages, at places 2 and 3, the first with a link that nothing looks at.
const TWO: &str = "2 4 4 9 [0:1:0 3:5:10 4:0:20 0:1:0 6:6:6]";

/// A compress with a journal of so many rows: the answer, the store after it and the journal.
fn compress(before: &str, reset: bool, rows: usize) -> (String, String, Vec<Row>) {
    let (mut words, mut journal) = (Words::of(before), vec![OTHER; rows]);
    let answer = lend([&mut words], &mut journal, |[(h, mut t)], rows| raw::compress_with(reset, h, &mut t, rows));
    (told(answer), words.to_string(), journal)
}

fn compresses(before: &str, reset: bool, answer: &str, after: &str, journal: &[Row]) {
    // As many rows as messages, and three more.
    assert_eq!(compress(before, reset, journal.len()), (answer.into(), after.into(), journal.to_vec()));
    let longer = [journal, &[OTHER; 3]].concat();
    assert_eq!(compress(before, reset, longer.len()), (answer.into(), after.into(), longer));
}

#[test]
fn compress_moves_down() {
    let down = [row((2, 3), (1, 10), false), row((3, 4), (2, 10), false)];
    compresses(TWO, false, "done 0 0 0", "2 2 0 10 [10:0:10 10:0:20 0:0:0 0:0:0 6:6:6]", &down);
    // A message whose place stays counts as moved.
    let stays = [row((1, 3), (1, 6), false)];
    compresses("1 1 0 5 [3:9:7]", false, "done 0 0 0", "1 1 0 6 [6:0:7]", &stays);
    compresses("0 1 1 9 [0:1:0]", false, "done 0 0 0", "0 0 0 9 [0:0:0]", &[]);
    compresses("0 0 0 9 []", false, "done 0 0 0", "0 0 0 9 []", &[]);
}

#[test]
fn compress_resets_the_generation() {
    let down = [row((2, 3), (1, 2), false), row((3, 4), (2, 2), false)];
    compresses(TWO, true, "done 0 0 0", "2 2 0 2 [2:0:10 2:0:20 0:0:0 0:0:0 6:6:6]", &down);
    compresses("0 1 1 9 [0:1:0]", true, "done 0 0 0", "0 0 0 2 [0:0:0]", &[]);
}

#[test]
fn compress_overflows() {
    let over = [row((1, 3), (1, 2), false)];
    compresses("1 1 0 4294967295 [3:0:7]", false, "over 0 0 0", "1 1 0 2 [2:0:7]", &over);
    compresses("1 1 0 4294967295 [3:0:7]", true, "done 0 0 0", "1 1 0 2 [2:0:7]", &over);
}

#[test]
fn compress_refused() {
    for rows in [0, 1] {
        assert_eq!(compress(TWO, false, rows), ("no5".into(), TWO.into(), vec![OTHER; rows]));
    }
    // Unsound, also with a journal that is too short; a generation of 1 is.
    for unsound in ["0 1 1 2 [0:0:0]", "1 1 1 2 [2:0:5]", "1 2 2 2 [0:1:0 3:0:5]", "0 0 0 1 []"] {
        assert_eq!(compress(unsound, true, 0), ("no4".into(), unsound.into(), vec![]));
    }
    refuses_unfit(|h, t| raw::compress_with(false, h, t, &mut [OTHER; 2]));
}

/// What a call over two stores leaves: the answer, the destination, the source and the journal.
#[derive(PartialEq, Debug)]
struct Left(String, Words, Words, Vec<Row>);

fn transfer(generation: u32, d: &Words, s: &Words, rows: usize) -> Left {
    let (mut d, mut s, mut journal) = (d.clone(), s.clone(), vec![OTHER; rows]);
    let answer = lend([&mut d, &mut s], &mut journal, |[(dh, mut dt), (sh, mut st)], rows| {
        raw::transfer_reallocating(generation, dh, &mut dt, sh, &mut st, rows)
    });
    Left(told(answer), d, s, journal)
}

fn copy(d: &Words, s: &Words) -> Left {
    let (mut d, mut s) = (d.clone(), s.clone());
    let answer = lend([&mut d, &mut s], &mut vec![], |[(dh, mut dt), (sh, st)], _| {
        raw::clone_from_with(dh, &mut dt, sh, st.view())
    });
    Left(told(answer), d, s, vec![])
}

/// Both calls are turned down by 1 and then by 2, on both stores.
fn refuses_either(call: impl Fn(&Words, &Words) -> Left) {
    let sound = Words::of("1 1 0 5 [5:0:1]");
    let refused = |d: &Words, s: &Words, answer: &str| {
        let Left(given, destination, source, _) = call(d, s);
        assert_eq!((&*given, &destination, &source), (answer, d, s));
    };
    for unfit in unfit_tables() {
        refused(&unfit, &sound, "no1");
        refused(&sound, &unfit, "no1");
        refused(&unfit_headers()[0], &unfit, "no1");
    }
    for unfit in unfit_headers() {
        refused(&unfit, &sound, "no2");
        refused(&sound, &unfit, "no2");
    }
    let unsound = Words::of("0 1 1 2 [0:0:0]");
    refused(&unsound, &sound, "no4");
    refused(&sound, &unsound, "no4");
    refused(&unsound, &unfit_headers()[3], "no2");
}

#[test]
fn transfer_moves_all() {
    let (d, s) = (Words::of("1 2 1 5 [0:1:0 5:0:1 6:6:6]"), Words::of(TWO));
    let after = Words::of("2 2 0 7 [7:0:10 7:0:20 6:6:6]");
    let source = Words::of("0 4 3 11 [0:1:0 0:4:0 0:2:0 0:1:0 6:6:6]");
    let rows = vec![row((2, 3), (1, 7), false), row((3, 4), (2, 7), false)];
    let longer = [&rows[..], &[OTHER; 2]].concat();
    assert_eq!(transfer(7, &d, &s, 2), Left("done 0 0 0".into(), after.clone(), source.clone(), rows));
    assert_eq!(transfer(7, &d, &s, 4), Left("done 0 0 0".into(), after, source, longer));
}

#[test]
fn transfer_fills_the_destination() {
    let (d, s) = (Words::new(1), Words::of("1 1 0 9 [3:0:10]"));
    let Left(answer, after, source, _) = transfer(7, &d, &s, 1);
    assert_eq!((&*answer, after, source), ("done 0 0 0", Words::of("1 1 0 7 [7:0:10]"), Words::of("0 0 0 10 [0:0:0]")));
}

#[test]
fn transfer_of_nothing_clears() {
    let (d, s) = (Words::of("1 1 0 5 [5:0:1]"), Words::of("0 1 1 9 [0:1:0]"));
    assert_eq!(transfer(7, &d, &s, 0), Left("done 0 0 0".into(), Words::of("0 0 0 7 [0:0:0]"), s, vec![]));
    assert_eq!(transfer(1, &d, &Words::new(0), 0).1, Words::of("0 0 0 1 [0:0:0]"));
}

#[test]
fn transfer_shows_an_overflow_in_its_row() {
    let (d, s) = (Words::new(3), Words::of("2 2 0 4294967295 [5:0:10 6:0:20]"));
    let after = Words::of("2 2 0 9 [9:0:10 9:0:20 0:0:0]");
    let source = Words::of("0 1 1 3 [0:1:0 0:0:0]");
    let rows = vec![row((1, 5), (1, 9), true), row((2, 6), (2, 9), false)];
    assert_eq!(transfer(9, &d, &s, 2), Left("done 0 0 0".into(), after, source, rows));
}

#[test]
fn transfer_refused() {
    let (d, s) = (Words::of("0 1 1 5 [0:1:0]"), Words::of(TWO));
    // Two messages into one place: the destination is left ordered.
    let ordered = Words::of("0 0 0 5 [0:0:0]");
    assert_eq!(transfer(7, &d, &s, 2), Left("no9".into(), ordered, s.clone(), vec![OTHER; 2]));
    // 5 is tested before, and leaves all as it was.
    assert_eq!(transfer(7, &d, &s, 1), Left("no5".into(), d.clone(), s.clone(), vec![OTHER]));
    assert_eq!(transfer(0, &d, &s, 2), Left("no3".into(), d.clone(), s.clone(), vec![OTHER; 2]));
    // 3 is tested before 4.
    let unsound = Words::of("0 1 1 2 [0:0:0]");
    assert_eq!(transfer(0, &d, &unsound, 0), Left("no3".into(), d, unsound, vec![]));
    refuses_either(|d, s| transfer(7, d, s, 1));
}

#[test]
fn copy_takes_the_same_places() {
    let copies = |d: &str, s: &str, after: &str| {
        let s = Words::of(s);
        assert_eq!(copy(&Words::of(d), &s), Left("done 0 0 0".into(), Words::of(after), s, vec![]));
    };
    copies("1 1 0 5 [5:0:1 0:0:0 9:9:9]", "1 2 1 9 [0:1:77 4:6:20]", "1 2 1 9 [0:1:0 4:0:20 9:9:9]");
    copies("2 3 1 5 [0:1:0 5:0:1 5:0:2]", "1 1 0 9 [3:0:4]", "1 1 0 9 [3:0:4 0:0:0 0:0:0]");
    // Free places above the last message are not taken over.
    copies("0 0 0 2 [0:0:0]", "1 3 3 9 [3:0:4 0:2:0 0:2:0]", "1 1 0 9 [3:0:4]");
    copies("1 1 0 5 [5:0:1]", "0 1 1 8 [0:1:0]", "0 0 0 8 [0:0:0]");
}

#[test]
fn copy_refused() {
    let (d, s) = (Words::of("0 1 1 5 [0:1:0]"), Words::of("1 2 1 9 [0:1:0 4:0:20]"));
    // The last message is above the destination's only place.
    assert_eq!(copy(&d, &s), Left("no9".into(), Words::of("0 0 0 5 [0:0:0]"), s, vec![]));
    refuses_either(copy);
}
