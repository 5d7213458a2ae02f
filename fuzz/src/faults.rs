//! Faults made on purpose in the model, so that the comparison is seen to find them. Each spoils what the model gives in the cases that a
//! model with that fault would get wrong.

use crate::call::{Call, Lent, Reply};
use crate::compare::Side;
use crate::model::answer::{Answer, Kind};
use crate::model::sequence::Checked;

pub struct Fault {
    pub name: &'static str,
    pub says: &'static str,
    pub spoil: fn(&Call, &Lent, &mut Side),
}

fn kind(side: &Side) -> Option<Kind> {
    match &side.reply {
        Reply::Answer(answer) => Some(answer.kind),
        _ => None,
    }
}

fn refuse(side: &mut Side, number: u8) {
    side.reply = Reply::Answer(Answer::bare(Kind::Refused(number)));
}

fn is_done(side: &Side) -> bool {
    kind(side) == Some(Kind::Done)
}

fn insert_keeps_the_link(call: &Call, before: &Lent, side: &mut Side) {
    let root = before.store.header.root as usize;
    if matches!(call, Call::Insert(_)) && is_done(side) && root > 0 {
        side.lent.store.links[root - 1] = before.store.links[root - 1];
    }
}

fn overflow_goes_to_1(call: &Call, before: &Lent, side: &mut Side) {
    if matches!(call, Call::IncGeneration) && before.store.header != side.lent.store.header {
        side.lent.store.header.generation = before.store.header.generation.wrapping_add(1).max(1);
    }
}

fn removal_tests_6_first(call: &Call, before: &Lent, side: &mut Side) {
    let Call::Remove(h) = call else { return };
    if kind(side) == Some(Kind::Refused(4)) && before.store.generation(h.index) != h.generation {
        refuse(side, 6);
    }
}

fn transfer_tests_9_first(call: &Call, before: &Lent, side: &mut Side) {
    let too_many = before.other.header.len as usize > before.store.generations.len();
    if matches!(call, Call::Transfer(_)) && kind(side) == Some(Kind::Refused(5)) && too_many {
        side.lent.store.order();
        refuse(side, 9);
    }
}

fn refused_reserve_does_not_order(call: &Call, before: &Lent, side: &mut Side) {
    if matches!(call, Call::Reserve(_)) && !is_done(side) {
        side.lent = before.clone();
    }
}

fn clear_always_steps(call: &Call, before: &Lent, side: &mut Side) {
    if matches!(call, Call::Clear) && is_done(side) && before.store.header.len == 0 {
        side.reply = Reply::Answer(side.lent.store.step_generation());
    }
}

fn clear_zeroes_above_the_stack(call: &Call, _: &Lent, side: &mut Side) {
    if matches!(call, Call::Clear) && is_done(side) {
        side.lent.store.values.fill(0);
    }
}

fn cursor_stays_past_the_end(call: &Call, before: &Lent, side: &mut Side) {
    if matches!(call, Call::Advance) && before.cursor.index > before.store.header.m {
        side.lent.cursor = before.cursor;
    }
}

fn drain_end_overflows(call: &Call, before: &Lent, side: &mut Side) {
    let Reply::Answer(answer) = &mut side.reply else { return };
    let ended = matches!(call, Call::Drain) && answer.kind == Kind::Done && answer.handle.index == 0;
    if ended && before.store.header.len > 0 && before.store.header.generation == u32::MAX {
        answer.kind = Kind::Overflow;
    }
}

fn root_above_the_stack_is_verdict_4(_: &Call, before: &Lent, side: &mut Side) {
    let Reply::Audit(answer, _) = &mut side.reply else { return };
    if answer.value == 6 && before.store.header.root > before.store.header.m {
        answer.value = 4;
    }
}

fn compress_keeps_the_link_of_what_stays(call: &Call, before: &Lent, side: &mut Side) {
    if matches!(call, Call::Compress(_)) && is_done(side) && before.store.live(1) {
        side.lent.store.links[0] = before.store.links[0];
    }
}

fn compress_clears_later_rows(call: &Call, before: &Lent, side: &mut Side) {
    if matches!(call, Call::Compress(_)) && is_done(side) {
        let rows = side.lent.journal.iter_mut().skip(before.store.header.len as usize);
        rows.for_each(|row| row.overflow = false);
    }
}

fn order_zeroes_free_values(call: &Call, _: &Lent, side: &mut Side) {
    if matches!(call, Call::Order) && is_done(side) {
        let s = &mut side.lent.store;
        s.free_places().into_iter().for_each(|place| s.values[place as usize - 1] = 0);
    }
}

fn transfer_orders_its_source(call: &Call, _: &Lent, side: &mut Side) {
    if matches!(call, Call::Transfer(_)) && is_done(side) {
        side.lent.other.order();
    }
}

fn copy_takes_values_of_free_places(call: &Call, before: &Lent, side: &mut Side) {
    if matches!(call, Call::Copy) && is_done(side) {
        let m = side.lent.store.header.m as usize;
        side.lent.store.values[..m].copy_from_slice(&before.other.values[..m]);
    }
}

fn refused_command_stays_next(call: &Call, before: &Lent, side: &mut Side) {
    if matches!(call, Call::Step) && matches!(kind(side), Some(Kind::Refused(_))) {
        side.lent.next = before.next;
    }
}

fn end_tests_the_header(call: &Call, before: &Lent, side: &mut Side) {
    if matches!(call, Call::Step) && kind(side) == Some(Kind::End) && before.store.header.generation == 0 {
        refuse(side, 2);
    }
}

fn run_stops_before_the_last(call: &Call, _: &Lent, side: &mut Side) {
    if matches!(call, Call::Run) && side.lent.next == 4_096 {
        side.lent.next = 4_095;
    }
}

fn tables_of_1_024_are_refused(call: &Call, before: &Lent, side: &mut Side) {
    if matches!(call, Call::Get(_)) && before.store.generations.len() == 1_024 {
        refuse(side, 1);
    }
}

fn file_of_4_096_commands_is_taken(_: &Call, before: &Lent, side: &mut Side) {
    let Reply::Checked(checked) = &mut side.reply else { return };
    if checked.refusal == 10 && before.file.len() == 8 + 16 * 4_096 {
        *checked = Checked::default();
    }
}

macro_rules! faults {
    ($($name:ident: $says:expr;)*) => {
        pub const FAULTS: &[Fault] = &[$(Fault { name: stringify!($name), says: $says, spoil: $name }),*];
    };
}

faults! {
    insert_keeps_the_link: "an insert at the root leaves the link of the free place";
    overflow_goes_to_1: "a generation step that overflows goes to 1";
    removal_tests_6_first: "remove tests 6 before 4";
    transfer_tests_9_first: "transfer tests 9 before 5";
    refused_reserve_does_not_order: "a refused reserve leaves the store as it was";
    clear_always_steps: "a clear of a store without messages steps the generation";
    clear_zeroes_above_the_stack: "a clear zeroes words above the stack";
    cursor_stays_past_the_end: "an advance past the end leaves its cursor";
    drain_end_overflows: "the end of a drain answers overflow";
    root_above_the_stack_is_verdict_4: "the audit's verdict on a root above the stack is 4";
    compress_keeps_the_link_of_what_stays: "a compress leaves the link of a message that stays";
    compress_clears_later_rows: "a compress writes rows after its last";
    order_zeroes_free_values: "order zeroes the values of free places";
    transfer_orders_its_source: "a transfer orders its source";
    copy_takes_values_of_free_places: "a copy takes the values of free places";
    refused_command_stays_next: "a step whose command is refused does not move on";
    end_tests_the_header: "a step past the last tests the header";
    run_stops_before_the_last: "a run of 4,095 commands stops one short";
    tables_of_1_024_are_refused: "get refuses tables of 1,024 entries";
    file_of_4_096_commands_is_taken: "the check takes 4,096 commands";
}
