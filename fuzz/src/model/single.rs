//! The calls about one message, and those that set and step the generation.

use super::answer::{Answer, Handle, Outcome};
use super::refusals;
use super::store::Store;

/// The insertion itself: the root place if there is one, else the place above the stack.
fn insert(s: &mut Store, value: u64) -> Answer {
    let generation = s.header.generation;
    let root = s.header.root;
    let index = if root == 0 { s.header.m + 1 } else { root };
    if root == 0 {
        s.push(generation, value);
    } else {
        s.header.root = if s.link(root) == root { 0 } else { s.link(root) };
        s.write(root, generation, 0, value);
    }
    s.header.len += 1;
    Answer::done().showing(Handle { index, generation }, value)
}

pub fn insert_within_capacity(s: &mut Store, value: u64) -> Outcome {
    refusals::store(s)?;
    refusals::root(s)?;
    refusals::room(s)?;
    Ok(insert(s, value))
}

/// As the other insert, with 9 before 7.
pub fn insert_reallocating(s: &mut Store, value: u64) -> Outcome {
    refusals::store(s)?;
    refusals::root(s)?;
    if s.header.len as usize == s.capacity() {
        return Err(9);
    }
    refusals::room(s)?;
    Ok(insert(s, value))
}

pub fn remove(s: &mut Store, handle: Handle) -> Outcome {
    refusals::store(s)?;
    refusals::handle(handle)?;
    refusals::removal(s, handle.index)?;
    refusals::named(s, handle)?;
    Ok(s.take(handle.index))
}

pub fn remove_inx(s: &mut Store, index: u16) -> Outcome {
    refusals::store(s)?;
    refusals::argument(index as u32)?;
    refusals::removal(s, index)?;
    refusals::index(s, index)?;
    Ok(s.take(index))
}

/// The tests of invalidate, get and put.
fn access(s: &Store, handle: Handle) -> refusals::Fit {
    refusals::store(s)?;
    refusals::handle(handle)?;
    refusals::named(s, handle)
}

pub fn invalidate(s: &mut Store, handle: Handle) -> Outcome {
    access(s, handle)?;
    let stepped = s.step_generation();
    let generation = s.header.generation;
    s.generations[handle.index as usize - 1] = generation;
    Ok(stepped.showing(Handle { generation, ..handle }, 0))
}

pub fn get(s: &Store, handle: Handle) -> Outcome {
    access(s, handle)?;
    Ok(Answer::done().showing(handle, s.value(handle.index)))
}

pub fn put(s: &mut Store, value: u64, handle: Handle) -> Outcome {
    access(s, handle)?;
    s.values[handle.index as usize - 1] = value;
    Ok(Answer::done())
}

pub fn set_generation(s: &mut Store, generation: u32) -> Outcome {
    refusals::store(s)?;
    refusals::argument(generation)?;
    s.header.generation = generation;
    Ok(Answer::done())
}

pub fn inc_generation(s: &mut Store) -> Outcome {
    refusals::store(s)?;
    Ok(s.step_generation())
}
