//! The three lent tables and the header, and what the calls do to them. Places run from 1.

use super::answer::{Answer, Handle, Kind};

/// The most entries that the tables may have.
pub const MOST_PLACES: usize = 1_024;

#[derive(Clone, Copy, Debug, PartialEq, Eq)]
pub struct Header {
    pub len: u16,
    /// The stack's length.
    pub m: u16,
    /// The first place of the free chain, 0 if there is none.
    pub root: u16,
    pub generation: u32,
}

#[derive(Clone, Debug, PartialEq, Eq)]
pub struct Store {
    pub generations: Vec<u32>,
    pub links: Vec<u16>,
    pub values: Vec<u64>,
    pub header: Header,
}

impl Store {
    /// Zeroes every word of the tables, however long each is, and sets the first header.
    pub fn lay_out(&mut self) {
        self.generations.fill(0);
        self.links.fill(0);
        self.values.fill(0);
        self.header = Header { len: 0, m: 0, root: 0, generation: 2 };
    }

    /// C. The calls ask for it once the tables are known to be equally long.
    pub fn capacity(&self) -> usize {
        self.generations.len()
    }

    pub fn generation(&self, place: u16) -> u32 {
        self.generations[place as usize - 1]
    }

    pub fn link(&self, place: u16) -> u16 {
        self.links[place as usize - 1]
    }

    pub fn value(&self, place: u16) -> u64 {
        self.values[place as usize - 1]
    }

    pub fn write(&mut self, place: u16, generation: u32, link: u16, value: u64) {
        self.generations[place as usize - 1] = generation;
        self.links[place as usize - 1] = link;
        self.values[place as usize - 1] = value;
    }

    /// The places of the stack, ascending.
    pub fn stack(&self) -> std::ops::RangeInclusive<u16> {
        1..=self.header.m
    }

    /// Whether a message is at this place of the stack. Place 0 and those above m have none.
    pub fn live(&self, place: u16) -> bool {
        place != 0 && place <= self.header.m && self.generation(place) != 0
    }

    /// The handle of the message at a live place.
    pub fn handle(&self, place: u16) -> Handle {
        Handle { index: place, generation: self.generation(place) }
    }

    pub fn live_places(&self) -> Vec<u16> {
        self.stack().filter(|&place| self.live(place)).collect()
    }

    pub fn free_places(&self) -> Vec<u16> {
        self.stack().filter(|&place| !self.live(place)).collect()
    }

    /// The generation step, which says whether it overflowed.
    pub fn step_generation(&mut self) -> Answer {
        if self.header.generation == u32::MAX {
            self.header.generation = 2;
            return Answer::bare(Kind::Overflow);
        }
        self.header.generation += 1;
        Answer::done()
    }

    /// The step of clear and of compress: only where there are messages.
    pub fn step_unless_empty(&mut self) -> Answer {
        if self.header.len == 0 {
            return Answer::done();
        }
        self.step_generation()
    }

    pub fn push(&mut self, generation: u32, value: u64) {
        self.header.m += 1;
        self.write(self.header.m, generation, 0, value);
    }

    /// Pops place m: three zeros.
    pub fn pop(&mut self) {
        self.write(self.header.m, 0, 0, 0);
        self.header.m -= 1;
    }

    pub fn pop_down_to(&mut self, m: u16) {
        while self.header.m > m {
            self.pop();
        }
    }

    /// The stack emptied and zeroed; the generation stays.
    pub fn empty(&mut self) {
        self.pop_down_to(0);
        self.header.len = 0;
        self.header.root = 0;
    }

    /// Trailing free places popped, the others linked ascending from the root, the last to itself.
    pub fn order(&mut self) {
        let last = self.live_places().last().copied().unwrap_or(0);
        self.pop_down_to(last);
        let free = self.free_places();
        self.header.root = free.first().copied().unwrap_or(0);
        for (i, &place) in free.iter().enumerate() {
            self.links[place as usize - 1] = free.get(i + 1).copied().unwrap_or(place);
        }
    }

    /// Takes the message from a live place that is fit to be removed, and steps the generation.
    pub fn take(&mut self, place: u16) -> Answer {
        let (handle, value) = (self.handle(place), self.value(place));
        if place == self.header.m {
            self.pop();
        } else {
            let link = if self.header.root == 0 { place } else { self.header.root };
            self.write(place, 0, link, 0);
            self.header.root = place;
        }
        self.header.len -= 1;
        self.step_generation().showing(handle, value)
    }
}
