//! The paper's worked sequence, and cases that are easy to get wrong. A store is written `len m root generation`, then its places
//! as (generation, link, value).

use super::answer::{Answer, Cursor, Handle, Kind, Outcome, Row};
use super::sequence::{self, Checked, Command};
use super::store::{Header, Store};
use super::{audit, single, two, walk, whole};

type Place = (u32, u16, u64);

const EMPTY: Place = (0, 0, 0);
const NO_ROW: Row = Row { old: at(0, 0), new: at(0, 0), overflow: true };

const fn at(index: u16, generation: u32) -> Handle {
    Handle { index, generation }
}

fn store(header: [u32; 4], places: &[Place]) -> Store {
    let [len, m, root, generation] = header;
    Store {
        generations: places.iter().map(|p| p.0).collect(),
        links: places.iter().map(|p| p.1).collect(),
        values: places.iter().map(|p| p.2).collect(),
        header: Header { len: len as u16, m: m as u16, root: root as u16, generation },
    }
}

fn laid_out(places: usize) -> Store {
    let mut s = store([9, 9, 9, 9], &vec![(9, 9, 9); places]);
    s.lay_out();
    s
}

fn done(handle: Handle, value: u64) -> Outcome {
    Ok(Answer::done().showing(handle, value))
}

fn file(places: u16, commands: &[Command]) -> Vec<u8> {
    let commands = commands.iter().flat_map(|&c| sequence::bytes(c));
    sequence::head(places).into_iter().chain(commands).collect()
}

fn named(code: u8, index: u16, generation: u32) -> Command {
    Command { code, index, generation, ..Command::default() }
}

fn insert(value: u64) -> Command {
    Command { code: 1, value, ..Command::default() }
}

fn compress(flag: u8) -> Command {
    Command { code: 7, flag, ..Command::default() }
}

fn worked() -> Vec<Command> {
    let remove = |index, generation| named(2, index, generation);
    let get = |index, generation| named(4, index, generation);
    let first = [insert(10), insert(20), insert(30), insert(40), remove(1, 2), get(1, 2), remove(3, 2)];
    let then = [insert(50), named(3, 2, 2), remove(1, 4), compress(0), get(1, 7), named(5, 0, 0), compress(1)];
    [first, then].concat()
}

const WORKED: &str = "ok 1 2 10 1 1 0 2
ok 2 2 20 2 2 0 2
ok 3 2 30 3 3 0 2
no7 0 0 0 3 3 0 2
ok 1 2 10 2 3 1 3
no6 0 0 0 2 3 1 3
ok 3 2 30 1 2 1 4
ok 1 4 50 2 2 0 4
ok 2 5 0 2 2 0 5
ok 1 4 50 1 2 1 6
ok 0 0 0 1 1 0 7
ok 1 7 20 1 1 0 7
ok 0 0 0 0 0 0 8
ok 0 0 0 0 0 0 2
";

fn line(answer: Answer, h: Header) -> String {
    let word = match answer.kind {
        Kind::Done => "ok".to_string(),
        Kind::Overflow => "over".to_string(),
        Kind::Refused(number) => format!("no{number}"),
        other => format!("{other:?}"),
    };
    let Handle { index, generation } = answer.handle;
    format!("{word} {index} {generation} {} {} {} {} {}\n", answer.value, h.len, h.m, h.root, h.generation)
}

#[test]
fn the_worked_sequence_step_by_step() {
    let (mut s, file, mut journal, mut next) = (laid_out(3), file(3, &worked()), [NO_ROW; 3], 1);
    let mut listing = String::new();
    for _ in worked() {
        let answer = sequence::step(&mut next, &file, &mut s, &mut journal);
        listing += &line(answer, s.header);
    }
    assert_eq!(listing, WORKED);
    let end = sequence::step(&mut next, &file, &mut s, &mut journal);
    assert_eq!((end, next), (Answer::bare(Kind::End), 15));
    assert_eq!(journal, [Row { old: at(2, 5), new: at(1, 7), overflow: false }, NO_ROW, NO_ROW]);
}

#[test]
fn the_worked_sequence_in_one_run() {
    let (mut s, mut next) = (laid_out(3), 1);
    let (checked, tally) = sequence::run(&mut next, &file(3, &worked()), &mut s, &mut [NO_ROW; 3]);
    assert_eq!((checked, next), (Checked::default(), 15));
    assert_eq!(tally[..5], [[4, 0, 1], [3, 0, 0], [1, 0, 0], [1, 0, 1], [1, 0, 0]]);
    assert_eq!(tally[5..], [[0, 0, 0], [2, 0, 0], [0, 0, 0], [0, 0, 0], [0, 0, 0]]);
}

#[test]
fn tables_are_refused_by_1() {
    assert_eq!(single::inc_generation(&mut laid_out(1_024)), Ok(Answer::done()));
    assert_eq!(single::inc_generation(&mut laid_out(1_025)), Err(1));
    let mut s = laid_out(2);
    s.links.pop();
    assert_eq!(audit::audit(&s).0, Err(1));
    assert_eq!(two::copy(&mut laid_out(1), &s), Err(1));
}

#[test]
fn headers_are_refused_by_2_and_audit_skips_it() {
    for header in [[0, 2, 0, 2], [1, 0, 0, 2], [0, 0, 1, 2], [0, 0, 0, 0]] {
        assert_eq!(whole::clear(&mut store(header, &[EMPTY])), Err(2));
    }
    assert_eq!(audit::verdict(&store([0, 2, 0, 2], &[EMPTY])), (2, 0));
}

#[test]
fn an_insert_with_an_unsound_root_is_refused_by_4() {
    let cases =
        [([0, 1, 1, 2], (2, 0, 9)), ([0, 1, 1, 2], (0, 2, 0)), ([0, 1, 1, 2], EMPTY), ([1, 1, 1, 2], (0, 1, 0))];
    for (header, place) in cases {
        assert_eq!(single::insert_within_capacity(&mut store(header, &[place]), 5), Err(4));
    }
    assert_eq!(single::insert_reallocating(&mut store([1, 1, 1, 2], &[(3, 0, 9)]), 5), Err(4));
    assert_eq!(single::insert_reallocating(&mut store([0, 1, 0, 2], &[(0, 1, 0)]), 5), Err(7));
    assert_eq!(single::insert_reallocating(&mut store([1, 1, 0, 2], &[(2, 0, 9)]), 5), Err(9));
}

#[test]
fn a_removal_tests_4_before_6() {
    assert_eq!(single::remove(&mut store([0, 1, 0, 2], &[(3, 0, 9)]), at(1, 2)), Err(4));
    assert_eq!(single::remove_inx(&mut store([1, 1, 1, 2], &[(3, 0, 9)]), 1), Err(4));
    assert_eq!(single::remove(&mut store([1, 2, 1, 2], &[(0, 1, 0), (2, 0, 5)]), at(1, 2)), Err(6));
    assert_eq!(single::remove(&mut laid_out(1), at(1, 0)), Err(3));
}

#[test]
fn a_removal_at_the_largest_generation_overflows() {
    let mut s = store([1, 1, 0, u32::MAX], &[(7, 0, 9)]);
    let overflow = Answer::bare(Kind::Overflow).showing(at(1, 7), 9);
    assert_eq!(single::remove(&mut s, at(1, 7)), Ok(overflow));
    assert_eq!(s, laid_out(1));
}

#[test]
fn a_drain_back_from_above_the_stack_clears_it() {
    let mut s = store([1, 1, 0, 2], &[(2, 0, 10), EMPTY]);
    let mut cursor = Cursor { index: 2, rev: true };
    assert_eq!(walk::drain(&mut s, &mut cursor), done(at(0, 0), 0));
    assert_eq!(cursor, Cursor { index: 1, rev: true });
    assert_eq!(s, store([0, 0, 0, 3], &[EMPTY, EMPTY]));
}

#[test]
fn a_refused_drain_hands_its_cursor_back() {
    let mut cursor = Cursor { index: 1, rev: false };
    assert_eq!(walk::drain(&mut store([0, 2, 0, 2], &[EMPTY, (2, 0, 9)]), &mut cursor), Err(4));
    assert_eq!(cursor, Cursor { index: 1, rev: false });
}

#[test]
fn an_advance_moves_even_past_the_end() {
    let mut cursor = Cursor { index: 65_535, rev: false };
    assert_eq!(walk::advance(&laid_out(1), &mut cursor), done(at(0, 0), 0));
    assert_eq!(cursor, Cursor { index: 0, rev: false });
}

#[test]
fn order_keeps_the_values_of_free_places_and_the_links_of_live_ones() {
    let mut s = store([1, 3, 3, 2], &[(0, 9, 5), (4, 8, 6), (0, 3, 7)]);
    assert_eq!(whole::order(&mut s), Ok(Answer::done()));
    assert_eq!(s, store([1, 2, 1, 2], &[(0, 1, 5), (4, 8, 6), EMPTY]));
    assert_eq!(whole::order(&mut store([1, 1, 0, 2], &[(0, 1, 0)])), Err(4));
}

#[test]
fn a_reserve_orders_before_8_and_9() {
    for (places, number) in [(65_536, 8), (2, 9)] {
        let mut s = store([0, 1, 1, 2], &[(0, 1, 5)]);
        assert_eq!(whole::reserve(&mut s, places), Err(number));
        assert_eq!(s, laid_out(1));
    }
}

#[test]
fn a_compress_moves_also_what_stays() {
    let mut s = store([2, 4, 2, 4], &[(3, 7, 10), (0, 4, 0), (2, 0, 30), (0, 4, 0)]);
    assert_eq!(whole::compress(&mut s.clone(), false, &mut [NO_ROW]), Err(5));
    let mut journal = [NO_ROW; 3];
    assert_eq!(whole::compress(&mut s, false, &mut journal), Ok(Answer::done()));
    assert_eq!(s, store([2, 2, 0, 5], &[(5, 0, 10), (5, 0, 30), EMPTY, EMPTY]));
    let row = |old, new| Row { old, new, overflow: false };
    assert_eq!(journal, [row(at(1, 3), at(1, 5)), row(at(3, 2), at(2, 5)), NO_ROW]);
}

#[test]
fn a_compress_of_generation_1_is_refused_by_4() {
    let mut s = laid_out(0);
    assert_eq!(single::set_generation(&mut s, 1), Ok(Answer::done()));
    assert_eq!(whole::compress(&mut s, true, &mut []), Err(4));
}

#[test]
fn a_transfer_steps_its_source_and_notes_the_overflow() {
    let mut d = store([1, 1, 0, 9], &[(9, 0, 1), (5, 5, 5)]);
    let mut s = store([2, 3, 2, u32::MAX], &[(3, 0, 10), (0, 2, 0), (4, 0, 30)]);
    let mut journal = [NO_ROW; 2];
    assert_eq!(two::transfer(&mut d, &mut s, 6, &mut journal), Ok(Answer::done()));
    assert_eq!(d, store([2, 2, 0, 6], &[(6, 0, 10), (6, 0, 30)]));
    assert_eq!(s, store([0, 2, 1, 3], &[(0, 2, 0), (0, 2, 0), EMPTY]));
    let row = |old, new, overflow| Row { old, new, overflow };
    assert_eq!(journal, [row(at(1, 3), at(1, 6), true), row(at(3, 4), at(2, 6), false)]);
}

#[test]
fn a_transfer_tests_5_before_9_which_orders_the_destination() {
    let s = store([2, 2, 0, 5], &[(3, 0, 10), (4, 0, 30)]);
    let unordered = store([0, 1, 1, 2], &[(0, 1, 5)]);
    let (mut d, mut source) = (unordered.clone(), s.clone());
    assert_eq!(two::transfer(&mut d, &mut source, 6, &mut [NO_ROW]), Err(5));
    assert_eq!(d, unordered);
    assert_eq!(two::transfer(&mut d, &mut source, 6, &mut [NO_ROW; 2]), Err(9));
    assert_eq!((d, source), (laid_out(1), s));
}

#[test]
fn a_copy_is_ordered_and_takes_the_generation() {
    let mut d = store([1, 1, 0, 9], &[(9, 0, 1), (5, 5, 5), (6, 6, 6)]);
    let s = store([1, 3, 3, 7], &[(0, 1, 8), (4, 2, 20), (0, 1, 0)]);
    assert_eq!(two::copy(&mut d, &s), Ok(Answer::done()));
    assert_eq!(d, store([1, 2, 1, 7], &[(0, 1, 0), (4, 0, 20), (6, 6, 6)]));
    assert_eq!(two::copy(&mut laid_out(1), &s), Err(9));
}

#[test]
fn every_verdict() {
    let (free, live) = ((0, 1, 0), (2, 0, 9));
    let cases = [
        (store([1, 2, 1, 2], &[free, live]), 0),
        (store([1, 2, 1, 1], &[free, live]), 1),
        (store([3, 2, 1, 2], &[free, live]), 2),
        (store([2, 2, 1, 2], &[free, live]), 3),
        (store([1, 2, 0, 2], &[free, live]), 4),
        (store([1, 2, 1, 2], &[EMPTY, live]), 5),
        (store([1, 2, 1, 2], &[(0, 3, 0), live]), 6),
        (store([1, 2, 9, 2], &[free, live]), 6),
        (store([1, 2, 2, 2], &[free, live]), 7),
        (store([0, 2, 1, 2], &[(0, 2, 0), free]), 8),
        (store([0, 2, 1, 2], &[free, free]), 9),
    ];
    for (s, verdict) in cases {
        assert_eq!(audit::verdict(&s).0, verdict, "{s:?}");
        assert!(audit::verdict(&s).1 <= s.header.m as u32 + 2);
    }
}

#[test]
fn files_are_refused_by_10_to_13() {
    let good = file(2, &[insert(7), compress(1)]);
    let check = |next, file: &[u8]| sequence::check(next, file, &laid_out(2));
    let refused = |refusal, fault| Checked { refusal, fault };
    assert_eq!(check(3, &good), Checked::default());
    assert_eq!(check(0, &good), refused(12, 0));
    assert_eq!(check(4, &good), refused(12, 0));
    assert_eq!(check(1, &good[..7]), refused(10, 0));
    assert_eq!(check(1, &good[..39]), refused(10, 0));
    assert_eq!(check(1, &file(3, &[])), refused(12, 0));
    for (byte, refusal, fault) in
        [(2, 11, 0), (4, 11, 0), (7, 11, 0), (6, 12, 0), (8, 13, 1), (10, 13, 1), (24, 13, 2), (25, 13, 2)]
    {
        let mut bad = good.clone();
        bad[byte] += 11;
        assert_eq!(check(1, &bad), refused(refusal, fault), "byte {byte}");
    }
    let many = |n| file(2, &vec![named(8, 0, 0); n]);
    assert_eq!(check(4_096, &many(4_095)), Checked::default());
    assert_eq!(check(1, &many(4_096)), refused(10, 0));
}

#[test]
fn a_step_turned_down_leaves_its_state() {
    let (mut s, mut next) = (laid_out(2), 1);
    let answer = sequence::step(&mut next, &file(2, &[named(11, 0, 0)]), &mut s, &mut []);
    assert_eq!((answer, next), (Answer::bare(Kind::TurnedDown(13, 1)), 1));
}

#[test]
fn the_places_that_a_file_is_lent() {
    assert_eq!(sequence::lent_places(&file(3, &[])), 3);
    assert_eq!(sequence::lent_places(&file(1_025, &[])), 1_024);
    assert_eq!(sequence::lent_places(&file(3, &[])[..6]), 1_024);
}
