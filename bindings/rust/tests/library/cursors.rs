//! Advance and drain, by a cursor.
use nektawul::{Answer, Cursor, Header, Tables, raw};

use crate::lent::{Words, refuses_unfit, told};

/// A cursor as text: `up` or `down`, and its index.
fn cursor(text: &str) -> Cursor {
    let (way, index) = text.split_once(' ').expect("way and index");
    Cursor { index: index.parse().expect("an index"), rev: way == "down" }
}

/// A cursor call on a store: its answer, the cursor after it, and the store after it (`same` where it is unchanged).
fn at(
    before: &str,
    from: &str,
    call: impl Fn(&mut Cursor, &mut Header, &mut Tables<'_>) -> Answer,
    answer: (&str, &str),
    after: &str,
) {
    let mut words = Words::of(before);
    let (given, moved) = words.lend(|h, t| {
        let mut cursor = cursor(from);
        let given = call(&mut cursor, h, t);
        (given, cursor)
    });
    assert_eq!((told(given), moved), (answer.0.to_string(), cursor(answer.1)), "{before}, {from}");
    assert_eq!(words.to_string(), if after == "same" { before } else { after }, "{before}, {from}");
}

fn advances(from: &str, answer: &str, to: &str) {
    let call = |cursor: &mut Cursor, h: &mut Header, t: &mut Tables<'_>| raw::advance(cursor, h, t.view());
    at("2 4 2 5 [3:0:1 0:4:0 4:0:2 0:4:0 6:6:6]", from, call, (answer, to), "same");
}

#[test]
fn advance_moves_before_it_looks() {
    advances("up 1", "done 1 3 0", "up 2");
    advances("up 2", "done 3 4 0", "up 4");
    // Past the last message it goes on to the first index above m, and one more.
    advances("up 4", "done 0 0 0", "up 6");
    advances("up 5", "done 0 0 0", "up 6");
    advances("up 6", "done 0 0 0", "up 7");
    advances("up 65535", "done 0 0 0", "up 0");
    advances("up 0", "done 0 0 0", "up 0");
    advances("down 4", "done 3 4 0", "down 2");
    advances("down 2", "done 1 3 0", "down 0");
    advances("down 0", "done 0 0 0", "down 0");
    // Above m it is at its end, though there are messages below.
    advances("down 5", "done 0 0 0", "down 4");
    advances("down 65535", "done 0 0 0", "down 65534");
}

#[test]
fn advance_refused_leaves_the_cursor() {
    for from in ["up 1", "down 0"] {
        refuses_unfit(|h, t| {
            let mut moved = cursor(from);
            let answer = raw::advance(&mut moved, h, t.view());
            assert_eq!(moved, cursor(from));
            answer
        });
    }
}

fn drains(before: &str, from: &str, answer: &str, to: &str, after: &str) {
    at(before, from, raw::drain, (answer, to), after);
}

#[test]
fn drain_withdraws_one_after_the_other() {
    let all = "2 3 2 5 [3:0:1 0:2:0 4:0:2]";
    let one = "1 3 1 6 [0:2:0 0:2:0 4:0:2]";
    let none = "0 2 1 7 [0:2:0 0:2:0 0:0:0]";
    drains(all, "up 1", "done 1 3 1", "up 2", one);
    drains(one, "up 2", "done 3 4 2", "up 4", none);
    // The end counts as a clear, which does not step the generation of an empty store.
    drains(none, "up 4", "done 0 0 0", "up 5", "0 0 0 7 [0:0:0 0:0:0 0:0:0]");
    drains(all, "down 3", "done 3 4 2", "down 2", "1 2 2 6 [3:0:1 0:2:0 0:0:0]");
}

#[test]
fn drain_at_its_end_clears() {
    drains("2 3 2 5 [3:0:1 0:2:0 4:0:2]", "up 0", "done 0 0 0", "up 0", "0 0 0 6 [0:0:0 0:0:0 0:0:0]");
    drains("1 1 0 2 [2:0:10 0:0:0]", "down 2", "done 0 0 0", "down 1", "0 0 0 3 [0:0:0 0:0:0]");
    // It answers done although the generation runs over.
    drains("1 1 0 4294967295 [2:0:10]", "up 0", "done 0 0 0", "up 0", "0 0 0 2 [0:0:0]");
    drains("1 1 0 4294967295 [2:0:10]", "up 1", "over 1 2 10", "up 2", "0 0 0 2 [0:0:0]");
}

#[test]
fn drain_refused_leaves_the_cursor() {
    drains("0 1 0 2 [3:0:9]", "up 1", "no4", "up 1", "same");
    drains("1 1 1 2 [3:0:9]", "up 1", "no4", "up 1", "same");
    refuses_unfit(|h, t| {
        let mut moved = cursor("up 1");
        let answer = raw::drain(&mut moved, h, t);
        assert_eq!(moved, cursor("up 1"));
        answer
    });
}
