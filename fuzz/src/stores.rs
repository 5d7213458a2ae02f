//! Stores drawn: new, sound, damaged, and arbitrary.

use crate::draw::Draw;
use crate::model::store::{Header, Store};

/// A number of places: few as a rule, now and then at the limit of 1,024, and rarely far above it, also where 16 bits run over.
fn places(d: &mut Draw) -> usize {
    if d.one_in(6_000) {
        return d.of(&[2_048, 65_535, 65_536, 65_541, 66_560]);
    }
    if d.one_in(40) {
        return d.of(&[1_022, 1_023, 1_024, 1_024, 1_025, 1_026]);
    }
    d.below(13)
}

fn zeroed(c: usize) -> Store {
    let header = Header { len: 0, m: 0, root: 0, generation: 2 };
    Store { generations: vec![0; c], links: vec![0; c], values: vec![0; c], header }
}

/// A new store, which calls then fill.
pub fn new(d: &mut Draw) -> Store {
    zeroed(places(d))
}

/// Arbitrary words in a place.
fn scribble(d: &mut Draw, s: &mut Store, i: usize) {
    let c = s.generations.len();
    s.generations[i] = if d.one_in(2) { 0 } else { d.generation(s.header.generation) };
    s.links[i] = d.index(c);
    s.values[i] = d.value();
}

/// A current generation that the audit lets pass.
fn current(d: &mut Draw) -> u32 {
    d.generation(7).max(2)
}

/// A stack of c places at most: full, one short of it, or any.
fn stack_length(d: &mut Draw, c: usize) -> usize {
    match d.below(4) {
        0 => c,
        1 => c.saturating_sub(1),
        _ => d.below(c + 1),
    }
}

/// Links the free places in a drawn order.
fn chain(d: &mut Draw, s: &mut Store) {
    let free = s.free_places();
    let free = d.shuffled(free);
    s.header.root = free.first().copied().unwrap_or(0);
    for (i, &place) in free.iter().enumerate() {
        s.links[place as usize - 1] = free.get(i + 1).copied().unwrap_or(place);
    }
}

/// A place of a sound store, live with `fill` chances of 4. Untidy ones have words that no call reads.
fn lay(d: &mut Draw, s: &mut Store, i: usize, fill: usize, tidy: bool) {
    let in_stack = i < s.header.m as usize;
    let live = in_stack && d.below(4) < fill;
    scribble(d, s, i);
    if live {
        s.generations[i] = d.generation(s.header.generation);
    } else if in_stack || tidy {
        s.generations[i] = 0;
    }
    if tidy {
        s.links[i] = 0;
        s.values[i] = if live { s.values[i] } else { 0 };
    }
}

/// A sound store of any shape, also such as calls do not make: words above the stack, values in free places, links in live ones.
pub fn sound(d: &mut Draw) -> Store {
    let mut s = zeroed(places(d).min(1_024));
    s.header.m = stack_length(d, s.capacity()) as u16;
    s.header.generation = current(d);
    let (fill, tidy) = (d.below(5), d.one_in(2));
    for i in 0..s.capacity() {
        lay(d, &mut s, i, fill, tidy);
    }
    s.header.len = s.live_places().len() as u16;
    chain(d, &mut s);
    s
}

/// Cuts or lengthens one table, mostly by a word.
fn mislength(d: &mut Draw, s: &mut Store) {
    let c = s.generations.len();
    let less = c.saturating_sub(1);
    let length = if d.one_in(500) { c + 65_536 } else { d.of(&[c + 1, c + 1, less, less, 0, 2 * c]) };
    match d.below(3) {
        0 => s.generations.resize(length, 0),
        1 => s.links.resize(length, 0),
        _ => s.values.resize(length, 0),
    }
}

/// A header's number changed, mostly by little.
fn changed(d: &mut Draw, number: u16, c: usize) -> u16 {
    match d.below(3) {
        0 => number.wrapping_add(1),
        1 => number.wrapping_sub(1),
        _ => d.index(c),
    }
}

/// A place whose words are worth damaging: the root's half of the time.
fn target(d: &mut Draw, s: &Store, c: usize) -> Option<usize> {
    let root = s.header.root as usize;
    if root > 0 && root <= c && d.one_in(2) {
        return Some(root - 1);
    }
    (c > 0).then(|| d.below(c))
}

/// Damages a word of the header or of a table, or rarely a table's length.
pub fn damage(d: &mut Draw, s: &mut Store) {
    let c = s.generations.len().min(s.links.len()).min(s.values.len());
    let (what, place) = (d.below(12), target(d, s, c));
    match (what, place) {
        (0 | 1, _) => s.header.len = changed(d, s.header.len, c),
        (2, _) => s.header.m = changed(d, s.header.m, c),
        (3, _) => s.header.root = changed(d, s.header.root, c),
        (4, _) => s.header.generation = d.of(&[0, 1, 2, u32::MAX]),
        (5, _) if d.one_in(3) => mislength(d, s),
        (5 | 6, Some(i)) => s.generations[i] = if d.one_in(2) { 0 } else { d.generation(2) },
        (7, Some(i)) => s.links[i] = 0,
        (_, Some(i)) => s.links[i] = d.index(s.header.m as usize),
        (_, None) => s.header.root = d.index(c),
    }
}

pub fn damaged(d: &mut Draw) -> Store {
    let mut s = sound(d);
    for _ in 0..=d.below(3) {
        damage(d, &mut s);
    }
    s
}

/// Any tables and any header.
pub fn arbitrary(d: &mut Draw) -> Store {
    let mut s = zeroed(places(d));
    let c = s.capacity();
    for i in 0..c {
        scribble(d, &mut s, i);
    }
    s.header = Header { len: d.index(c), m: d.index(c), root: d.index(c), generation: d.generation(2) };
    if d.one_in(8) {
        mislength(d, &mut s);
    }
    s
}
