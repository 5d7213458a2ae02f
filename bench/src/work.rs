//! The works: loops over the calls of a store. `crates/bench_calls` has the same works in Rattle, and each gives the same sum.
use std::hint::black_box;

use nektawul::Row;

use crate::store::{Messages, Places};

/// How a work is played: on how many places, every how many of which has a message, how often. Places and stride are powers of two.
#[derive(Clone, Copy)]
pub struct Size {
    pub places: usize,
    pub stride: usize,
    pub turns: u32,
}

impl Size {
    pub fn live(self) -> usize {
        self.places / self.stride
    }
}

/// Refusal 6, which is added to the sum where no message is found.
const INVALID: u64 = 6;

/// A store in which every place has a message, and its handles.
fn full<S: Messages>(size: Size) -> (S, Vec<S::Handle>) {
    let mut store = S::new(size.places);
    let handles = (1..=size.places).map(|p| store.insert(p as u64).expect("a place is free")).collect();
    (store, handles)
}

/// A store in which every `stride`-th place has a message, and its handles.
fn spread<S: Messages>(size: Size) -> (S, Vec<S::Handle>) {
    let (mut store, all) = full::<S>(size);
    let mut kept = Vec::new();
    for (i, &p) in all.iter().enumerate() {
        if (i + 1) % size.stride == 0 {
            kept.push(p);
        } else {
            store.remove(p).expect("it is live");
        }
    }
    (store, kept)
}

/// Plays a turn for each choice of a handle's number.
#[inline(always)]
fn each_choice(size: Size, mut turn: impl FnMut(u32, usize) -> u64) -> u64 {
    let mask = black_box(size.live() as u32 - 1);
    let mut x = 1u32;
    let mut sum = 0u64;
    for t in 0..size.turns {
        x = x.wrapping_add(2_654_435_769);
        sum = sum.wrapping_add(turn(t, ((x ^ (x >> 16)) & mask) as usize));
    }
    sum
}

#[inline(always)]
fn each_turn(size: Size, mut turn: impl FnMut() -> u64) -> u64 {
    (0..size.turns).fold(0, |sum, _| sum.wrapping_add(turn()))
}

#[inline(never)]
pub fn insert<S: Messages>(size: Size) -> u64 {
    let mut store = S::new(size.places);
    each_turn(size, || {
        let sum = (1..=size.places).map(|value| store.insert(value as u64).map_or(0, S::index)).sum();
        store.clear();
        sum
    })
}

#[inline(never)]
pub fn get<S: Messages>(size: Size) -> u64 {
    let (store, handles) = spread::<S>(size);
    each_choice(size, |_, k| store.get(handles[k]).unwrap_or(INVALID))
}

/// Get by handles that are withdrawn, while newer messages have their places.
#[inline(never)]
pub fn stale<S: Messages>(size: Size) -> u64 {
    let (mut store, mut handles) = full::<S>(size);
    store.clear();
    for value in 1..=size.places {
        store.insert(value as u64).expect("a place is free");
    }
    handles.truncate(size.live());
    each_choice(size, |_, k| store.get(handles[k]).unwrap_or(INVALID))
}

#[inline(never)]
pub fn put<S: Messages>(size: Size) -> u64 {
    let (mut store, handles) = spread::<S>(size);
    each_choice(size, |t, k| if store.put(handles[k], t.into()) { 1 } else { INVALID })
}

/// A message is removed and another inserted.
#[inline(never)]
pub fn churn<S: Messages>(size: Size) -> u64 {
    let (mut store, mut handles) = spread::<S>(size);
    each_choice(size, |t, k| {
        let value = store.remove(handles[k]).unwrap_or(INVALID);
        if let Some(p) = store.insert(t.into()) {
            handles[k] = p;
        }
        value
    })
}

#[inline(never)]
pub fn invalidate<S: Places>(size: Size) -> u64 {
    let (mut store, mut handles) = spread::<S>(size);
    each_choice(size, |_, k| match store.invalidate(handles[k]) {
        Some(p) => {
            handles[k] = p;
            S::generation(p)
        }
        None => INVALID,
    })
}

#[inline(never)]
pub fn walk<S: Messages>(size: Size) -> u64 {
    let (store, _) = spread::<S>(size);
    each_turn(size, || black_box(&store).walk().sum())
}

#[inline(never)]
pub fn drain<S: Messages>(size: Size) -> u64 {
    let mut store = S::new(size.places);
    each_turn(size, || {
        for value in 1..=size.places {
            store.insert(value as u64);
        }
        store.drain().sum()
    })
}

#[inline(never)]
pub fn compress<S: Places>(size: Size) -> u64 {
    let (mut store, _) = spread::<S>(size);
    let mut rows = vec![Row::default(); 1024];
    each_turn(size, || {
        store.compress(false, black_box(&mut rows));
        rows[0].new.generation.into()
    })
}

#[inline(never)]
pub fn order<S: Places>(size: Size) -> u64 {
    let (mut store, _) = spread::<S>(size);
    each_turn(size, || {
        store.order();
        store.root()
    })
}

#[inline(never)]
pub fn audit<S: Places>(size: Size) -> u64 {
    let (store, _) = spread::<S>(size);
    each_turn(size, || black_box(&store).audit() + 1)
}

#[inline(never)]
pub fn copy<S: Places>(size: Size) -> u64 {
    let (source, _) = spread::<S>(size);
    let mut store = S::new(size.places);
    each_turn(size, || {
        store.copy_from(black_box(&source));
        store.len()
    })
}

/// All messages into the other store and back.
#[inline(never)]
pub fn transfer<S: Places>(size: Size) -> u64 {
    let (mut store, _) = spread::<S>(size);
    let mut other = S::new(size.places);
    let mut rows = vec![Row::default(); 1024];
    each_turn(size, || {
        other.transfer_from(&mut store, black_box(&mut rows));
        let there = u64::from(rows[0].new.index);
        store.transfer_from(&mut other, black_box(&mut rows));
        there + u64::from(rows[0].new.index)
    })
}
