//! The calls on a single message: every answer and refusal of each, and the words after it.
use nektawul::{Answer, Header, Ptr, Tables, raw};

use crate::lent::{Call, Words, case, refuses_unfit, told};

const MAX: u32 = u32::MAX;

fn insert(value: u64) -> impl Call {
    move |h: &mut Header, t: &mut Tables<'_>| raw::insert_within_capacity(value, h, t)
}

fn insert_reallocating(value: u64) -> impl Call {
    move |h: &mut Header, t: &mut Tables<'_>| raw::insert_reallocating(value, h, t)
}

fn remove(index: u16, generation: u32) -> impl Call {
    move |h: &mut Header, t: &mut Tables<'_>| raw::remove(Ptr::new(index, generation), h, t)
}

fn remove_inx(index: u16) -> impl Call {
    move |h: &mut Header, t: &mut Tables<'_>| raw::remove_inx(index, h, t)
}

fn invalidate(index: u16, generation: u32) -> impl Call {
    move |h: &mut Header, t: &mut Tables<'_>| raw::invalidate(Ptr::new(index, generation), h, t)
}

fn get(index: u16, generation: u32) -> impl Call {
    move |h: &mut Header, t: &mut Tables<'_>| raw::get(Ptr::new(index, generation), h, t.view())
}

fn put(value: u64, index: u16, generation: u32) -> impl Call {
    move |h: &mut Header, t: &mut Tables<'_>| raw::put(value, Ptr::new(index, generation), h, t)
}

/// Both inserts do the same where the store is not full.
fn inserts(call: impl Fn(u64) -> Box<dyn Call>) {
    case("0 0 0 2 [0:0:0 0:0:0]", call(10), "done 1 2 10", "1 1 0 2 [2:0:10 0:0:0]");
    case("1 1 0 9 [2:0:10 7:7:7]", call(20), "done 2 9 20", "2 2 0 9 [2:0:10 9:0:20]");
    // The root place first: the last of the chain is linked to itself, another to the next.
    case("1 2 1 3 [0:1:0 2:0:20]", call(30), "done 1 3 30", "2 2 0 3 [3:0:30 2:0:20]");
    case("0 2 1 4 [0:2:0 0:2:0]", call(7), "done 1 4 7", "1 2 2 4 [4:0:7 0:2:0]");
    case("1 3 1 4 [0:2:0 0:2:0 2:0:30]", call(7), "done 1 4 7", "2 3 2 4 [4:0:7 0:2:0 2:0:30]");
    case(
        "0 0 0 4294967295 [0:0:0]",
        call(u64::MAX),
        "done 1 4294967295 18446744073709551615",
        "1 1 0 4294967295 [4294967295:0:18446744073709551615]",
    );
    // Unsound: the root is live, its link is 0, or above m, or there are as many messages as places of the stack.
    case("1 2 1 2 [2:2:10 0:2:0]", call(1), "no4", "same");
    case("1 2 1 2 [0:0:0 2:0:5]", call(1), "no4", "same");
    case("1 2 1 2 [0:3:0 2:0:5 0:0:0]", call(1), "no4", "same");
    case("2 2 1 2 [0:1:0 2:0:5]", call(1), "no4", "same");
    refuses_unfit(call(1));
}

#[test]
fn insert_within_capacity() {
    inserts(|value| Box::new(insert(value)));
    case("1 1 0 2 [2:0:10]", insert(1), "no7", "same");
    case("0 0 0 2 []", insert(1), "no7", "same");
    case("0 1 0 2 [0:1:0]", insert(1), "no7", "same");
}

#[test]
fn insert_reallocating_tests_9_before_7() {
    inserts(|value| Box::new(insert_reallocating(value)));
    case("1 1 0 2 [2:0:10]", insert_reallocating(1), "no9", "same");
    case("0 0 0 2 []", insert_reallocating(1), "no9", "same");
    case("0 1 0 2 [0:1:0]", insert_reallocating(1), "no7", "same");
    case("1 1 1 2 [3:0:9]", insert_reallocating(1), "no4", "same");
}

/// Both removals do the same at a live place.
fn removals(call: impl Fn(u16, u32) -> Box<dyn Call>) {
    case("2 2 0 2 [2:0:10 2:0:20]", call(1, 2), "done 1 2 10", "1 2 1 3 [0:1:0 2:0:20]");
    case("2 3 1 3 [0:1:0 2:0:20 2:0:30]", call(2, 2), "done 2 2 20", "1 3 2 4 [0:1:0 0:1:0 2:0:30]");
    // Place m is popped, and the chain stays.
    case("1 2 1 3 [0:1:0 2:8:20 7:7:7]", call(2, 2), "done 2 2 20", "0 1 1 4 [0:1:0 0:0:0 7:7:7]");
    case("1 1 0 4294967295 [2:0:10]", call(1, 2), "over 1 2 10", "0 0 0 2 [0:0:0]");
    case("1 1 0 2 [2:0:10]", call(0, 2), "no3", "same");
    // Unsound: a live place while there are no messages, or while the root names it.
    case("0 1 0 2 [2:0:9]", call(1, 2), "no4", "same");
    case("1 1 1 2 [2:0:9]", call(1, 2), "no4", "same");
    // A free place, one above m, one that no table has.
    case("1 2 1 3 [0:1:0 2:0:20]", call(1, 3), "no6", "same");
    case("1 1 0 2 [2:0:10 5:0:7]", call(2, 5), "no6", "same");
    case("1 1 0 2 [2:0:10]", call(65535, 2), "no6", "same");
    refuses_unfit(call(1, 2));
}

#[test]
fn remove_by_handle() {
    removals(|index, generation| Box::new(remove(index, generation)));
    case("1 1 0 2 [2:0:10]", remove(1, 0), "no3", "same");
    case("1 1 0 2 [2:0:10]", remove(1, 3), "no6", "same");
    // 4 does not look at the generation.
    case("0 1 0 2 [3:0:9]", remove(1, 2), "no4", "same");
}

#[test]
fn remove_by_index() {
    removals(|index, _| Box::new(remove_inx(index)));
    case("1 1 0 7 [5:0:10]", remove_inx(1), "done 1 5 10", "0 0 0 8 [0:0:0]");
}

/// Invalidate, get and put want a live place of equal generation.
fn refused_handles(call: impl Fn(u16, u32) -> Box<dyn Call>) {
    case("1 1 0 2 [2:0:10]", call(0, 2), "no3", "same");
    case("1 1 0 2 [2:0:10]", call(1, 0), "no3", "same");
    case("1 1 0 2 [2:0:10]", call(1, 3), "no6", "same");
    case("1 2 1 3 [0:1:0 2:0:20]", call(1, 3), "no6", "same");
    case("1 1 0 2 [2:0:10 5:0:7]", call(2, 5), "no6", "same");
    case("0 0 0 2 []", call(1, 2), "no6", "same");
    case("1 1 0 2 [2:0:10]", call(65535, MAX), "no6", "same");
    refuses_unfit(call(1, 2));
}

#[test]
fn invalidate_gives_a_new_handle() {
    case("1 2 2 5 [3:7:10 0:2:0]", invalidate(1, 3), "done 1 6 0", "1 2 2 6 [6:7:10 0:2:0]");
    case("1 1 0 4294967295 [3:0:10]", invalidate(1, 3), "over 1 2 0", "1 1 0 2 [2:0:10]");
    refused_handles(|index, generation| Box::new(invalidate(index, generation)));
}

#[test]
fn get_shows_the_value() {
    case("1 2 2 5 [3:7:10 0:2:0]", get(1, 3), "done 1 3 10", "same");
    case("1 1 0 2 [4294967295:0:0]", get(1, MAX), "done 1 4294967295 0", "same");
    refused_handles(|index, generation| Box::new(get(index, generation)));
}

#[test]
fn put_stores_the_value() {
    case("1 2 2 5 [3:7:10 0:2:0]", put(99, 1, 3), "done 0 0 0", "1 2 2 5 [3:7:99 0:2:0]");
    refused_handles(|index, generation| Box::new(put(99, index, generation)));
}

#[test]
fn a_stale_handle_shows_nothing() {
    let mut words = Words::new(2);
    let old = Ptr::new(1, 2);
    assert_eq!(words.lend(insert(10)), Answer::Done(old, 10));
    assert_eq!(words.lend(insert(20)), Answer::Done(Ptr::new(2, 2), 20));
    assert_eq!(words.lend(remove(1, 2)), Answer::Done(old, 10));
    assert_eq!(told(words.lend(get(1, 2))), "no6");
    // The place is used again by a newer message.
    assert_eq!(words.lend(insert(30)), Answer::Done(Ptr::new(1, 3), 30));
    for call in [
        Box::new(get(1, 2)) as Box<dyn Call>,
        Box::new(put(1, 1, 2)),
        Box::new(remove(1, 2)),
        Box::new(invalidate(1, 2)),
    ] {
        assert_eq!(told(words.lend(call)), "no6");
    }
    assert_eq!(words.to_string(), "2 2 0 3 [3:0:30 2:0:20]");
}

#[test]
fn tables_of_1024_are_taken() {
    let mut words = Words::new(1024);
    for value in 0..1024 {
        assert_eq!(words.lend(insert(value)), Answer::Done(Ptr::new(value as u16 + 1, 2), value));
    }
    assert_eq!(told(words.lend(insert(0))), "no7");
    assert_eq!(told(words.lend(get(1024, 2))), "done 1024 2 1023");
    assert_eq!(told(words.lend(remove_inx(1))), "done 1 2 0");
    assert_eq!(told(words.lend(insert(5))), "done 1 3 5");
}
