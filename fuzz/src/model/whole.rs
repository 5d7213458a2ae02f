//! The calls about one whole store: clear, order, reserve, compress.

use super::answer::{Answer, Handle, Outcome, Row};
use super::refusals;
use super::store::Store;

/// The clear itself, which a drain's end and a transfer share.
pub fn empty(s: &mut Store) -> Answer {
    let stepped = s.step_unless_empty();
    s.empty();
    stepped
}

pub fn clear(s: &mut Store) -> Outcome {
    refusals::store(s)?;
    Ok(empty(s))
}

pub fn order(s: &mut Store) -> Outcome {
    refusals::store(s)?;
    refusals::count(s)?;
    s.order();
    Ok(Answer::done())
}

/// Reserve orders first, so that 8 and 9 leave the store ordered.
pub fn reserve(s: &mut Store, places: usize) -> Outcome {
    order(s)?;
    if places > u16::MAX as usize {
        return Err(8);
    }
    if places > s.capacity() {
        return Err(9);
    }
    Ok(Answer::done())
}

fn reset_generation(s: &mut Store) -> Answer {
    s.header.generation = 2;
    Answer::done()
}

pub fn compress(s: &mut Store, reset: bool, journal: &mut [Row]) -> Outcome {
    refusals::store(s)?;
    refusals::sound(s)?;
    refusals::rows(journal, s.header.len)?;
    let answer = if reset { reset_generation(s) } else { s.step_unless_empty() };
    let generation = s.header.generation;
    let live = s.live_places();
    for (row, (&place, index)) in journal.iter_mut().zip(live.iter().zip(1..)) {
        let new = Handle { index, generation };
        *row = Row { old: s.handle(place), new, overflow: false };
        s.write(index, generation, 0, s.value(place));
    }
    s.pop_down_to(live.len() as u16);
    s.header.root = 0;
    Ok(answer)
}
