//! Lists of calls drawn at random, with a look at the stores: so that handles are mostly live, and stores fill up and empty again.
use crate::{
    play::{Judge, Player},
    script::{Code, Code::*, Line},
    store::Store,
};

/// Splitmix64: the same seed gives the same list everywhere.
pub struct Random(pub u64);

impl Random {
    pub fn next(&mut self) -> u64 {
        self.0 = self.0.wrapping_add(0x9e37_79b9_7f4a_7c15);
        let mut z = self.0;
        z = (z ^ (z >> 30)).wrapping_mul(0xbf58_476d_1ce4_e5b9);
        z = (z ^ (z >> 27)).wrapping_mul(0x94d0_49bb_1331_11eb);
        z ^ (z >> 31)
    }

    pub fn below(&mut self, n: u64) -> u64 {
        self.next() % n
    }

    fn one_in(&mut self, n: u64) -> bool {
        self.below(n) == 0
    }

    pub fn of<T: Copy>(&mut self, items: &[T]) -> T {
        items[self.below(items.len() as u64) as usize]
    }

    /// Small and large values alike.
    fn value(&mut self) -> u64 {
        let bits = self.below(64);
        self.next() >> bits
    }

    /// A generation to set: now and then the largest few, and 1, which makes the store unsound.
    fn generation(&mut self) -> u64 {
        match self.below(10) {
            0 => 1,
            1..=5 => u64::from(u32::MAX) - self.below(4),
            6 => 2,
            _ => u64::from((self.value() as u32).max(2)),
        }
    }
}

/// The calls of a list, with how often each comes while the store fills and while it empties.
pub type Weights = [(Code, u64, u64)];

pub const ALL_CALLS: &Weights = &[
    (InsertWithinCapacity, 40, 10),
    (InsertReallocating, 12, 4),
    (Remove, 8, 24),
    (RemoveInx, 4, 10),
    (Invalidate, 8, 6),
    (Get, 8, 8),
    (Put, 6, 6),
    (Order, 3, 4),
    (Reserve, 3, 3),
    (FindFirst, 2, 2),
    (FindLast, 2, 2),
    (SetGeneration, 2, 2),
    (IncGeneration, 2, 2),
    (Audit, 4, 4),
    (Advance, 8, 8),
    (Drain, 2, 6),
    (Compress, 2, 3),
    (Journal, 1, 1),
];

/// Calls that empty a store: once in about as many calls as it has places.
const EMPTYING: &[Code] = &[Clear, Transfer, Transfer, CopyFrom, CopyFrom, Drain];

/// Those of a sequence's commands.
pub const COMMANDS: &Weights = &[
    (InsertWithinCapacity, 40, 12),
    (Remove, 8, 24),
    (RemoveInx, 4, 10),
    (Invalidate, 8, 6),
    (Get, 8, 8),
    (Order, 2, 3),
    (SetGeneration, 2, 2),
    (Audit, 2, 2),
    (Compress, 1, 2),
];

pub struct List {
    pub random: Random,
    pub player: Player,
    /// Each line, with its answer if it is a call.
    pub lines: Vec<(Line, Option<String>)>,
    weights: &'static Weights,
    /// Handles that were given out once.
    handles: Vec<(u64, u64)>,
    cursor: (u64, u64),
    /// Whether each store fills or empties now.
    fills: [bool; 2],
    /// Whether generations are set to the largest few time and again.
    near_overflow: bool,
}

impl List {
    pub fn new(seed: u64, weights: &'static Weights, near_overflow: bool) -> Self {
        Self {
            random: Random(seed),
            player: Player::new(Judge::Both),
            lines: Vec::new(),
            weights,
            handles: Vec::new(),
            cursor: (1, 0),
            fills: [true; 2],
            near_overflow,
        }
    }

    pub fn play(&mut self, code: Code, other: bool, words: &[u64]) {
        let line = Line::new(code, other, words);
        let answer = self.player.play(&line);
        self.lines.push((line, answer));
    }

    fn store(&self, other: bool) -> &Store {
        if other { &self.player.other } else { &self.player.store }
    }

    /// A live handle mostly; else an old one, one of a free place, one with a zero, or any.
    fn handle(&mut self, other: bool) -> (u64, u64) {
        let m = self.store(other).header.m as u64;
        let kind = self.random.below(100);
        if kind < 70 && m > 0 {
            for _ in 0..8 {
                let p = 1 + self.random.below(m);
                if self.store(other).live(p as usize) {
                    return (p, self.store(other).place(p as usize).generation.into());
                }
            }
        }
        if kind < 85 && !self.handles.is_empty() {
            let handles = self.handles.len() as u64;
            return self.handles[self.random.below(handles) as usize];
        }
        let index = 1 + self.random.below(m + 2);
        match kind {
            96 => (0, 2),
            97 => (index, 0),
            98 => (65535 - self.random.below(3), 2),
            99 => (index, u64::from(self.random.value() as u32)),
            _ => (index, self.store(other).header.generation.into()),
        }
    }

    fn journal(&mut self, other: bool) {
        let len = self.store(other).header.len;
        let capacity = self.store(other).capacity() as u64;
        let rows = self.random.of(&[len.saturating_sub(1), len, len + 1, capacity, capacity, capacity + 1]);
        let longer = self.random.below(3);
        let filler = self.random.below(100);
        self.play(
            Journal,
            false,
            &[rows, rows + longer, rows, rows, rows, filler, longer % 2].map(|n: u64| n.min(1025)),
        );
    }

    fn arguments(&mut self, code: Code, other: bool) -> Vec<u64> {
        let (index, generation) = self.handle(other);
        match code {
            InsertWithinCapacity | InsertReallocating => vec![self.random.value()],
            Remove | Invalidate | Get => vec![index, generation],
            Put => vec![index, generation, self.random.value()],
            RemoveInx => vec![index],
            Reserve => {
                let capacity = self.store(other).capacity() as u64;
                let any = self.random.value();
                vec![self.random.of(&[0, capacity, capacity + 1, 65535, 65536, any, index])]
            }
            SetGeneration | Transfer => vec![self.random.generation()],
            Advance => {
                let (next, rev) = self.cursor;
                let turned = if self.random.one_in(3) { 1 - rev } else { rev };
                if self.random.one_in(4) { vec![index, turned] } else { vec![next, rev] }
            }
            // mostly where there is a message
            Drain => vec![index, self.random.below(2)],
            Compress => vec![u64::from(self.random.one_in(3))],
            _ => Vec::new(),
        }
    }

    /// A drain whose cursor meets no message is its end.
    fn ending_drain(&mut self, other: bool) -> Vec<u64> {
        let m = self.store(other).header.m as u64;
        let index = self.random.of(&[0, m + 1, 65535]);
        vec![index, self.random.below(2)]
    }

    fn weighed(&mut self, fills: bool) -> Code {
        let weight = |row: &(Code, u64, u64)| if fills { row.1 } else { row.2 };
        let mut left = self.random.below(self.weights.iter().map(weight).sum());
        for row in self.weights {
            if left < weight(row) {
                return row.0;
            }
            left -= weight(row);
        }
        unreachable!()
    }

    /// Whether the store fills now: until it is full and some calls more, or for about as many calls as it has places; and so back.
    fn fills(&mut self, other: bool) -> bool {
        let (len, capacity) = (self.store(other).header.len, self.store(other).capacity() as u64);
        let fills = &mut self.fills[usize::from(other)];
        if len == 0 {
            *fills = true;
        } else if self.random.one_in(if len == capacity { 4 } else { 2 * capacity + 4 }) {
            *fills = !*fills;
        }
        *fills
    }

    /// Takes note of what a call answered: a handle given out, the cursor after it.
    fn note(&mut self, answer: &str) {
        let two_after = |word: &str| {
            let (_, after) = answer.split_once(word)?;
            let mut numbers = after.split(' ').map_while(|number| number.parse().ok());
            Some((numbers.next()?, numbers.next()?))
        };
        let name = answer.trim_start_matches("other ");
        let gives = name.starts_with("insert") || name.starts_with("invalidate");
        if let (true, Some(handle)) = (gives, two_after(": ok ")) {
            self.handles.push(handle);
        }
        if let Some(cursor) = two_after(" cursor ") {
            self.cursor = cursor;
        }
    }

    /// One call more.
    pub fn draw(&mut self, two_stores: bool) {
        let other = two_stores && self.random.one_in(3);
        if self.near_overflow && self.random.one_in(8) {
            let generation = u64::from(u32::MAX) - self.random.below(3);
            return self.play(SetGeneration, other, &[generation]);
        }
        let fills = self.fills(other);
        let capacity = self.store(other).capacity() as u64;
        let empties = self.random.one_in(2 * capacity + 20);
        let code = match (empties, two_stores) {
            (true, true) => self.random.of(EMPTYING),
            (true, false) => Clear,
            _ => self.weighed(fills),
        };
        if code == Journal {
            return self.journal(other);
        }
        let words = match (empties, code) {
            (true, Drain) => self.ending_drain(other),
            _ => self.arguments(code, other),
        };
        self.play(code, other, &words);
        if let Some((_, Some(answer))) = self.lines.last() {
            let answer = answer.split(" |").next().unwrap_or("").to_string();
            self.note(&answer);
        }
    }
}

/// What a list is drawn from.
#[derive(Clone, Copy)]
pub struct Terms {
    pub seed: u64,
    pub places: u64,
    pub other_places: u64,
    pub near_overflow: bool,
    /// Whether both stores begin with a message at every place.
    pub full: bool,
    pub count: usize,
}

/// A list of calls on two new or full stores.
pub fn calls(terms: Terms) -> List {
    let Terms { seed, places, other_places, near_overflow, full, count } = terms;
    let mut list = List::new(seed, ALL_CALLS, near_overflow);
    let rows = places.max(other_places);
    for (other, places) in [(false, places), (true, other_places)] {
        list.play(New, other, &[places]);
        if full {
            list.play(Fill, other, &[2, 0, 7]);
            list.play(
                Store,
                other,
                &[places, places, places, places, places, 0, 2, 2, 0, 7, 2, 0, 7, 2, 0, 7, 2, 0, 7, 2, 0, 7, 2, 0, 7],
            );
        }
    }
    list.play(Journal, false, &[rows, rows, rows, rows, rows, 7, 1]);
    for _ in 0..count {
        list.draw(true);
    }
    list
}
