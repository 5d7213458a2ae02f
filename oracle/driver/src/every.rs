//! Short lists of calls and small stores, every one of them.
use std::collections::HashSet;

use crate::{
    play::{Judge, Player},
    script::{Code, Code::*, Line},
    store::{Header, NEW, Place},
};

/// The line that gives a store of these words.
fn store_line(header: Header, places: &[Place], other: bool) -> Line {
    let c = places.len() as u64;
    let mut words = vec![c, c, c, header.len, header.m as u64, header.root.into(), header.generation.into()];
    for place in places {
        words.extend([place.generation.into(), place.link.into(), place.value]);
    }
    Line::new(Store, other, &words)
}

/// The calls tried on a store: each with every handle of a place, old ones, and the limits.
fn tried(header: Header, places: &[Place]) -> Vec<Line> {
    let c = places.len() as u64;
    let max = u64::from(u32::MAX);
    let mut lines = Vec::new();
    let mut add = |code: Code, words: &[u64]| lines.push(Line::new(code, false, words));
    for value in [5, 6] {
        add(InsertWithinCapacity, &[value]);
    }
    add(InsertReallocating, &[7]);
    for p in 1..=c {
        let generation = match places[p as usize - 1].generation {
            0 => header.generation,
            live => live,
        };
        for code in [Remove, Invalidate, Get] {
            add(code, &[p, generation.into()]);
        }
        add(Put, &[p, generation.into(), 8]);
        add(Remove, &[p, u64::from(generation.wrapping_sub(1))]);
        add(RemoveInx, &[p]);
    }
    add(Get, &[c + 1, 2]);
    for code in [Clear, Order, FindFirst, FindLast, IncGeneration, Audit] {
        add(code, &[]);
    }
    for n in [c, c + 1, 65536] {
        add(Reserve, &[n]);
    }
    add(SetGeneration, &[max]);
    for index in [0, 1, 2, c, c + 1, 65535] {
        for rev in [0, 1] {
            add(Advance, &[index, rev]);
            add(Drain, &[index, rev]);
        }
    }
    for reset in [0, 1] {
        add(Compress, &[reset]);
    }
    lines
}

/// Calls with an argument of 0.
fn with_zero() -> [Line; 10] {
    [
        Line::new(Remove, false, &[0, 2]),
        Line::new(Remove, false, &[1, 0]),
        Line::new(RemoveInx, false, &[0]),
        Line::new(Invalidate, false, &[0, 2]),
        Line::new(Invalidate, false, &[1, 0]),
        Line::new(Get, false, &[0, 2]),
        Line::new(Get, false, &[1, 0]),
        Line::new(Put, false, &[0, 2, 8]),
        Line::new(Put, false, &[1, 0, 8]),
        Line::new(SetGeneration, false, &[0]),
    ]
}

/// Sources for transfer and copy.
fn sources() -> Vec<(Header, Vec<Place>)> {
    let live = |generation, value| Place { generation, link: 0, value };
    let free = |link| Place { generation: 0, link, value: 0 };
    let header = |len, m, root, generation| Header { len, m, root, generation };
    vec![
        (NEW, vec![]),
        (NEW, vec![Place::default()]),
        (header(1, 1, 0, 2), vec![live(2, 90)]),
        (header(1, 2, 1, u32::MAX), vec![free(1), live(3, 91), Place::default()]),
        (header(2, 3, 2, u32::MAX - 1), vec![live(4, 92), free(2), live(7, 93)]),
        (header(4, 4, 0, 9), vec![live(2, 94), live(3, 95), live(4, 96), live(5, 97)]),
    ]
}

/// A journal of more rows than any of these stores has messages.
fn rows() -> Line {
    Line::new(Journal, false, &[4, 4, 4, 4, 4, 88, 1])
}

fn no_rows() -> Line {
    Line::new(Journal, false, &[0; 7])
}

/// A case: the lines that give stores and journal, and one call, the last.
type Case = Vec<Line>;

/// The calls on one store.
fn alone(given: &Line, calls: impl IntoIterator<Item = Line>) -> impl Iterator<Item = Case> {
    calls.into_iter().map(|call| match call.code {
        Compress => vec![rows(), given.clone(), call],
        _ => vec![given.clone(), call],
    })
}

/// Transfer and copy from a source into the store, and from the store into it.
fn with_source(given: &Line, source: &Line) -> [Case; 4] {
    let case = |call: Line| match call.code {
        Transfer => vec![rows(), given.clone(), source.clone(), call],
        _ => vec![given.clone(), source.clone(), call],
    };
    [
        case(Line::new(Transfer, false, &[4])),
        case(Line::new(CopyFrom, false, &[])),
        case(Line::new(Transfer, true, &[5])),
        case(Line::new(CopyFrom, true, &[])),
    ]
}

/// For each store of so many places that a list of at most `depth` calls reaches from a new one: every call tried. So every list of one call
/// more is played, for what a call does hangs on the store alone. Answers how many stores there were.
pub fn lists(places: usize, depth: usize, mut case: impl FnMut(&[Line])) -> usize {
    let sources: Vec<Line> = sources().iter().map(|(header, places)| store_line(*header, places, true)).collect();
    let start = (NEW, vec![Place::default(); places]);
    let mut seen = HashSet::from([start.clone()]);
    let mut frontier = vec![start];
    for n in 0..=depth {
        let mut next = Vec::new();
        for (header, places) in frontier {
            let given = store_line(header, &places, false);
            let moves = sources.iter().flat_map(|source| with_source(&given, source));
            for lines in alone(&given, tried(header, &places)).chain(moves) {
                case(&lines);
                let after = after(&lines);
                if n < depth && seen.insert(after.clone()) {
                    next.push(after);
                }
            }
        }
        frontier = next;
    }
    seen.len()
}

/// The store after a case.
fn after(lines: &[Line]) -> (Header, Vec<Place>) {
    let mut player = Player::new(Judge::Both);
    for line in lines {
        player.play(line);
    }
    (player.store.header, player.store.shown().collect())
}

/// Every order of these places.
fn orders(places: &[u16]) -> Vec<Vec<u16>> {
    if places.is_empty() {
        return vec![Vec::new()];
    }
    let mut all = Vec::new();
    for &first in places {
        let rest: Vec<u16> = places.iter().copied().filter(|&p| p != first).collect();
        all.extend(orders(&rest).into_iter().map(|order| [&[first], order.as_slice()].concat()));
    }
    all
}

/// The sound store whose chain meets the free places in this order; the other places of the stack are live. Above the stack the words are any.
fn sound_store(places: usize, m: usize, chain: &[u16]) -> Line {
    let place = |p: usize| match chain.iter().position(|&q| usize::from(q) == p) {
        _ if p > m => Place { generation: 8, link: 6, value: 4 },
        None => Place { generation: 3 + p as u32, link: 0, value: 10 * p as u64 },
        Some(n) => Place { generation: 0, link: *chain.get(n + 1).unwrap_or(&chain[n]), value: 0 },
    };
    let words: Vec<Place> = (1..=places).map(place).collect();
    let root = chain.first().copied().unwrap_or(0);
    store_line(Header { len: (m - chain.len()) as u64, m, root, generation: 9 }, &words, false)
}

/// Every sound store of so many places, but for the messages' values and generations: every call tried on each.
pub fn sound_stores(places: usize, mut case: impl FnMut(&[Line])) {
    for m in 0..=places {
        for free in 0..1_u16 << m {
            let free: Vec<u16> = (1..=m as u16).filter(|p| free >> (p - 1) & 1 == 1).collect();
            for chain in orders(&free) {
                let given = sound_store(places, m, &chain);
                let mut player = Player::new(Judge::Both);
                player.play(&given);
                let words: Vec<Place> = player.store.shown().collect();
                alone(&given, tried(player.store.header, &words)).for_each(|lines| case(&lines));
                for (source, source_places) in &sources()[3..5] {
                    let source = store_line(*source, source_places, true);
                    with_source(&given, &source).iter().for_each(|lines| case(lines));
                }
            }
        }
    }
}

/// All ways to choose the words of so many places: a free place linked to each place and beyond, with a value or without; a live one.
fn each_place(places: usize) -> Vec<Vec<Place>> {
    let links = 1..=places as u16 + 1;
    let mut one: Vec<Place> = links.map(|link| Place { generation: 0, link, value: 0 }).collect();
    one.push(Place { generation: 0, link: 1, value: 4 });
    one.push(Place { generation: 2, link: 0, value: 9 });
    one.push(Place { generation: 3, link: 1, value: 9 });
    let mut all = vec![Vec::new()];
    for _ in 0..places {
        let longer =
            |before: &Vec<Place>| one.iter().map(|&place| [before.as_slice(), &[place]].concat()).collect::<Vec<_>>();
        all = all.iter().flat_map(longer).collect();
    }
    all
}

fn each_header(places: usize) -> Vec<Header> {
    let mut all = Vec::new();
    for m in 0..=places {
        for len in 0..=m as u64 + 1 {
            for root in 0..=places as u16 + 1 {
                all.extend([2, 1, u32::MAX].map(|generation| Header { len, m, root, generation }));
            }
        }
    }
    all
}

/// Every store of so many places, sound or not, with few words to choose from, that the Rust can hold: every call tried on each. Answers how
/// many stores there were.
pub fn stores(places: usize, mut case: impl FnMut(&[Line])) -> usize {
    let sources: Vec<Line> = sources()[2..4].iter().map(|(header, places)| store_line(*header, places, true)).collect();
    let mut count = 0;
    for words in each_place(places) {
        for header in each_header(places) {
            let given = store_line(header, &words, false);
            let calls = tried(header, &words).into_iter().chain(with_zero());
            alone(&given, calls).for_each(|lines| case(&lines));
            case(&[no_rows(), given.clone(), Line::new(Compress, false, &[0])]);
            for source in &sources {
                with_source(&given, source).iter().for_each(|lines| case(lines));
                case(&[rows(), given.clone(), source.clone(), Line::new(Transfer, false, &[0])]);
                case(&[no_rows(), given.clone(), source.clone(), Line::new(Transfer, false, &[4])]);
            }
            count += 1;
        }
    }
    count
}
