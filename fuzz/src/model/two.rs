//! The calls about two stores, a destination and a source: transfer and copy.

use super::answer::{Answer, Handle, Kind, Outcome, Row};
use super::refusals;
use super::store::Store;
use super::whole;

/// 9, which leaves the destination ordered.
fn too_small(d: &mut Store) -> Outcome {
    d.order();
    Err(9)
}

pub fn transfer(d: &mut Store, s: &mut Store, generation: u32, journal: &mut [Row]) -> Outcome {
    refusals::stores(d, s)?;
    refusals::argument(generation)?;
    refusals::sound(d)?;
    refusals::sound(s)?;
    refusals::rows(journal, s.header.len)?;
    if s.header.len as usize > d.capacity() {
        return too_small(d);
    }
    whole::empty(d);
    d.header.generation = generation;
    for (row, place) in journal.iter_mut().zip(s.live_places()) {
        let taken = s.take(place);
        d.push(generation, taken.value);
        d.header.len += 1;
        let new = Handle { index: d.header.m, generation };
        *row = Row { old: taken.handle, new, overflow: taken.kind == Kind::Overflow };
    }
    Ok(Answer::done())
}

pub fn copy(d: &mut Store, s: &Store) -> Outcome {
    refusals::stores(d, s)?;
    refusals::sound(d)?;
    refusals::sound(s)?;
    let last = s.live_places().last().copied().unwrap_or(0);
    if last as usize > d.capacity() {
        return too_small(d);
    }
    d.empty();
    for place in 1..=last {
        let value = if s.live(place) { s.value(place) } else { 0 };
        d.push(s.generation(place), value);
    }
    d.header.len = s.header.len;
    d.header.generation = s.header.generation;
    d.order();
    Ok(Answer::done())
}
