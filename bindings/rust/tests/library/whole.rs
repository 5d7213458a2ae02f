//! The calls on a store as a whole: new, clear, order, reserve, the generation, audit, the finds.
use nektawul::{Answer, Header, Ptr, Refusal, Tables, raw};

use crate::lent::{Call, Words, case, refuses_unfit, told, unfit_tables};

fn clear(h: &mut Header, t: &mut Tables<'_>) -> Answer {
    raw::clear(h, t)
}

fn order(h: &mut Header, t: &mut Tables<'_>) -> Answer {
    raw::canonicalize_freelist(h, t)
}

fn reserve(places: usize) -> impl Call {
    move |h: &mut Header, t: &mut Tables<'_>| raw::reallocate_min_capacity(places, h, t)
}

fn set_generation(generation: u32) -> impl Call {
    move |h: &mut Header, t: &mut Tables<'_>| raw::set_generation(generation, h, t.view())
}

fn inc_generation(h: &mut Header, t: &mut Tables<'_>) -> Answer {
    raw::inc_generation(h, t.view())
}

fn find_first(h: &mut Header, t: &mut Tables<'_>) -> Answer {
    raw::find_first_inx_ptr(h, t.view())
}

fn find_last(h: &mut Header, t: &mut Tables<'_>) -> Answer {
    raw::find_last_inx_ptr(h, t.view())
}

#[test]
fn new_zeroes_every_word() {
    let mut words = Words::of("9 9 9 0 [1:1:1 2:2:2]");
    words.lend(raw::new);
    assert_eq!(words, Words::new(2));
    let mut empty = Words::of("9 9 9 0 []");
    empty.lend(raw::new);
    assert_eq!(empty, Words::new(0));
}

#[test]
fn new_zeroes_unequal_tables_too() {
    let mut words = Words::of("9 9 9 0 [1:1:1 2:2:2 3:3:3]");
    words.links.truncate(2);
    words.values.truncate(1);
    words.lend(raw::new);
    assert_eq!(words.header, Words::new(0).header);
    assert_eq!((&words.generations[..], &words.links[..], &words.values[..]), (&[0; 3][..], &[0; 2][..], &[0; 1][..]));
}

#[test]
fn clear_empties_the_stack() {
    case("1 2 2 5 [3:0:10 0:2:0 9:9:9]", clear, "done 0 0 0", "0 0 0 6 [0:0:0 0:0:0 9:9:9]");
    case("0 1 1 5 [0:1:0]", clear, "done 0 0 0", "0 0 0 5 [0:0:0]");
    case("1 1 0 4294967295 [3:0:10]", clear, "over 0 0 0", "0 0 0 2 [0:0:0]");
    case("0 1 1 4294967295 [0:1:0]", clear, "done 0 0 0", "0 0 0 4294967295 [0:0:0]");
    refuses_unfit(clear);
}

/// Reserve does to a store what order does, also where it is then refused.
fn orders(call: impl Fn() -> Box<dyn Call>, answer: &str) {
    case("1 4 4 9 [0:1:0 3:0:5 0:1:0 0:3:0]", call(), answer, "1 2 1 9 [0:1:0 3:0:5 0:0:0 0:0:0]");
    case("1 3 2 9 [0:1:0 0:1:0 3:0:5 8:8:8]", call(), answer, "1 3 1 9 [0:2:0 0:2:0 3:0:5 8:8:8]");
    case("0 3 1 9 [0:2:0 0:3:0 0:3:0]", call(), answer, "0 0 0 9 [0:0:0 0:0:0 0:0:0]");
    // A broken chain is mended; a free place's value and a live place's link stay.
    case("1 3 0 9 [0:0:6 0:9:0 3:7:5]", call(), answer, "1 3 1 9 [0:2:6 0:2:0 3:7:5]");
    case("1 1 0 2 [0:1:0]", call(), "no4", "same");
    case("0 1 0 2 [2:0:5]", call(), "no4", "same");
    refuses_unfit(call());
}

#[test]
fn canonicalize_freelist_orders() {
    orders(|| Box::new(order), "done 0 0 0");
    case("0 0 0 2 []", order, "done 0 0 0", "same");
}

#[test]
fn reallocate_min_capacity_orders_first() {
    orders(|| Box::new(reserve(3)), "done 0 0 0");
    orders(|| Box::new(reserve(5)), "no9");
    orders(|| Box::new(reserve(65535)), "no9");
    orders(|| Box::new(reserve(65536)), "no8");
    orders(|| Box::new(reserve(usize::MAX)), "no8");
}

#[test]
fn set_generation_sets() {
    case("1 1 0 2 [2:0:5]", set_generation(7), "done 0 0 0", "1 1 0 7 [2:0:5]");
    case("0 0 0 9 []", set_generation(1), "done 0 0 0", "0 0 0 1 []");
    case("0 0 0 9 []", set_generation(0), "no3", "same");
    refuses_unfit(set_generation(7));
}

#[test]
fn inc_generation_steps() {
    case("1 1 0 2 [2:0:5]", inc_generation, "done 0 0 0", "1 1 0 3 [2:0:5]");
    case("0 0 0 4294967295 []", inc_generation, "over 0 0 0", "0 0 0 2 []");
    refuses_unfit(inc_generation);
}

/// An audit, which looks at no more than m + 2 places of the chain and changes nothing.
fn audit(words: &Words) -> Answer {
    let mut after = words.clone();
    let (answer, looks) = after.lend(|h, t| raw::check_invariants(h, t.view()));
    assert!(u32::from(looks) <= u32::from(words.header.m) + 2);
    assert_eq!(&after, words);
    answer
}

#[test]
fn audit_has_ten_verdicts() {
    for (text, expected) in [
        ("0 0 0 2 []", 0),
        ("1 3 1 4 [0:2:0 0:2:0 2:9:30]", 0),
        ("0 0 0 1 []", 1),
        ("9 9 9 0 []", 1),
        ("1 0 0 2 []", 2),
        ("0 1 0 2 []", 2),
        ("1 1 0 2 [0:1:0]", 3),
        ("0 1 0 2 [2:0:5]", 3),
        ("0 1 0 2 [0:1:0]", 4),
        ("1 1 1 2 [2:0:5]", 4),
        ("0 1 1 2 [0:0:0]", 5),
        ("0 1 1 2 [0:2:0 0:0:0]", 6),
        ("0 1 2 2 [0:1:0 0:0:0]", 6),
        ("0 1 65535 2 [0:1:0]", 6),
        ("1 2 1 2 [0:2:0 3:0:5]", 7),
        ("1 2 2 2 [0:1:0 3:0:5]", 7),
        ("0 2 1 2 [0:2:0 0:1:0]", 8),
        ("0 2 1 2 [0:1:0 0:2:0]", 9),
    ] {
        assert_eq!(audit(&Words::of(text)), Answer::Done(Ptr::default(), expected), "{text}");
    }
}

#[test]
fn audit_tests_1_alone() {
    for words in unfit_tables() {
        assert_eq!(audit(&words), Answer::Refused(Refusal::TablesUnfit));
    }
}

#[test]
fn the_finds() {
    case("2 3 2 5 [3:0:1 0:2:0 4:0:2]", find_first, "done 1 3 0", "same");
    case("2 3 2 5 [3:0:1 0:2:0 4:0:2]", find_last, "done 3 4 0", "same");
    case("1 3 1 5 [0:3:0 4:0:7 0:3:0 6:6:6]", find_first, "done 2 4 0", "same");
    case("1 3 1 5 [0:3:0 4:0:7 0:3:0 6:6:6]", find_last, "done 2 4 0", "same");
    for none in ["0 1 1 5 [0:1:0]", "0 0 0 2 []", "0 0 0 2 [5:5:5]"] {
        case(none, find_first, "done 0 0 0", "same");
        case(none, find_last, "done 0 0 0", "same");
    }
    refuses_unfit(find_first);
    refuses_unfit(find_last);
}

#[test]
fn a_store_without_places_refuses_a_message() {
    let mut words = Words::new(0);
    assert_eq!(told(words.lend(|h, t| raw::insert_within_capacity(1, h, t))), "no7");
    assert_eq!(told(words.lend(reserve(0))), "done 0 0 0");
    assert_eq!(told(words.lend(reserve(1))), "no9");
    assert_eq!(words, Words::new(0));
}
