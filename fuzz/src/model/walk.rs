//! The calls that look for a message: the finds, advance and drain.

use super::answer::{Answer, Cursor, Outcome};
use super::refusals;
use super::store::Store;
use super::whole;

/// The handle of a place, or no handle.
fn found(s: &Store, place: Option<u16>) -> Answer {
    match place {
        Some(place) => Answer::done().showing(s.handle(place), 0),
        None => Answer::done(),
    }
}

pub fn find_first(s: &Store) -> Outcome {
    refusals::store(s)?;
    Ok(found(s, s.live_places().first().copied()))
}

pub fn find_last(s: &Store) -> Outcome {
    refusals::store(s)?;
    Ok(found(s, s.live_places().last().copied()))
}

/// The cursor's index one on; 0, spent, forward from 65,535 and back from 1.
fn moved(cursor: Cursor) -> Cursor {
    let index = if cursor.rev { cursor.index - 1 } else { cursor.index.wrapping_add(1) };
    Cursor { index, ..cursor }
}

/// The next live place by the cursor, if there is one, and the cursor after it. The index moves before its place is looked at.
fn next(s: &Store, cursor: Cursor) -> (Option<u16>, Cursor) {
    let mut cursor = cursor;
    while cursor.index != 0 {
        let place = cursor.index;
        cursor = moved(cursor);
        if place > s.header.m {
            return (None, cursor);
        }
        if s.live(place) {
            return (Some(place), cursor);
        }
    }
    (None, cursor)
}

pub fn advance(s: &Store, cursor: &mut Cursor) -> Outcome {
    refusals::store(s)?;
    let (place, after) = next(s, *cursor);
    *cursor = after;
    Ok(found(s, place))
}

/// The call that finds no message is the drain's end: a clear that is done even on overflow.
pub fn drain(s: &mut Store, cursor: &mut Cursor) -> Outcome {
    refusals::store(s)?;
    let (place, after) = next(s, *cursor);
    let answer = match place {
        Some(place) => {
            refusals::removal(s, place)?;
            s.take(place)
        }
        None => {
            whole::empty(s);
            Answer::done()
        }
    };
    *cursor = after;
    Ok(answer)
}
