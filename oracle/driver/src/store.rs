//! A store of the script: the lent words and the header as document 01 has them, and beside them the Rust's arena that holds the same.
use std::num::{NonZeroU16, NonZeroU32, NonZeroUsize};

use triple_arena::{
    Arena, FixedHeapBacking, ptr_struct,
    traits::ArenaTrait,
    utils::{ArenaSlot, traits::NonZeroInxGenericStack},
};

ptr_struct!(Handle[NonZeroU16](NonZeroU32));

pub type Messages = Arena<Handle, u64, FixedHeapBacking>;

/// As many places as the longest table of a script has.
pub const MOST: usize = 1025;

#[derive(Clone, Copy, PartialEq, Eq, Hash)]
pub struct Header {
    pub len: u64,
    pub m: usize,
    pub root: u16,
    pub generation: u32,
}

/// The header of a new store.
pub const NEW: Header = Header { len: 0, m: 0, root: 0, generation: 2 };

/// The three words of a place.
#[derive(Clone, Copy, PartialEq, Eq, Hash, Default)]
pub struct Place {
    pub generation: u32,
    pub link: u16,
    pub value: u64,
}

/// What a call does to words that the Rust does not hold: a live place's link, a free place's value.
#[derive(Clone, Copy, PartialEq, Eq)]
pub enum Effect {
    /// They stay, but for a place that is inserted, freed or popped.
    Keeps,
    /// Every live message counts as moved.
    Moves,
    /// The stack is emptied first.
    Empties,
}

pub struct Store {
    /// Of generations, links and values.
    pub lengths: [usize; 3],
    pub header: Header,
    places: Vec<Place>,
    /// None where the Rust cannot hold such a store.
    pub arena: Option<Messages>,
    /// Whether a call could not be made, so that the words are not known any more.
    pub lost: bool,
}

impl Store {
    pub fn without_places() -> Self {
        let header = Header { generation: 0, ..NEW };
        Self { lengths: [0; 3], header, places: vec![Place::default(); MOST], arena: None, lost: false }
    }

    /// Laid out as a new store.
    pub fn lay_out(&mut self, places: usize) {
        self.lengths = [places; 3];
        self.header = NEW;
        self.places[..places].fill(Place::default());
        self.arena = Messages::with_min_capacity(places).ok();
        self.lost = false;
    }

    /// Place p, from 1. A word beyond its table is 0.
    pub fn place(&self, p: usize) -> Place {
        let Place { generation, link, value } = self.places[p - 1];
        Place {
            generation: if p <= self.lengths[0] { generation } else { 0 },
            link: if p <= self.lengths[1] { link } else { 0 },
            value: if p <= self.lengths[2] { value } else { 0 },
        }
    }

    /// The places of the longest table.
    pub fn shown(&self) -> impl Iterator<Item = Place> {
        let last = self.lengths.into_iter().max().unwrap_or(0);
        (1..=last).map(|p| self.place(p))
    }

    pub fn capacity(&self) -> usize {
        self.lengths[0]
    }

    pub fn live(&self, p: usize) -> bool {
        p >= 1 && p <= self.header.m && self.place(p).generation != 0
    }

    pub fn live_places(&self) -> u64 {
        (1..=self.header.m).filter(|&p| self.live(p)).count() as u64
    }

    /// Words of the first places, or of all.
    pub fn write(&mut self, words: impl Iterator<Item = Place>) {
        for (place, word) in self.places.iter_mut().zip(words) {
            *place = word;
        }
    }

    /// Gives the words and the header to an arena.
    pub fn load(&mut self) {
        self.arena = self.loaded();
        self.lost = false;
    }

    pub fn loaded(&self) -> Option<Messages> {
        let [capacity, links, values] = self.lengths;
        if links != capacity || values != capacity || self.header.m > capacity {
            return None;
        }
        let mut arena = Messages::with_min_capacity(capacity).ok()?;
        arena.set_generation(NonZeroU32::new(self.header.generation)?);
        for p in 1..=self.header.m {
            let place = self.place(p);
            let slot = match NonZeroU32::new(place.generation) {
                Some(generation) => ArenaSlot::Allocated(generation, place.value),
                None => ArenaSlot::Free(NonZeroU16::new(place.link)?),
            };
            // Safety: nothing of the arena relies on soundness for memory; an unsound store is what is asked for
            unsafe { arena.backing_mut() }.push_within_capacity(slot).ok()?;
        }
        // Safety: as above
        unsafe {
            arena.set_len(self.header.len as usize);
            arena.set_freelist_root(NonZeroU16::new(self.header.root));
        }
        Some(arena)
    }

    /// Takes words and header from the arena, after a call of this effect.
    pub fn unload(&mut self, effect: Effect) {
        let Some(arena) = &self.arena else { return };
        let before = self.header.m;
        let m = arena.backing().len();
        if effect == Effect::Empties {
            self.places[..before].fill(Place::default());
        }
        for p in 1..=m {
            let old = self.places[p - 1];
            let was_live = p <= before && old.generation != 0;
            let slot = arena.backing().get(NonZeroUsize::new(p).expect("p is from 1")).expect("p is in the stack");
            self.places[p - 1] = match slot {
                ArenaSlot::Allocated(generation, value) => {
                    let keeps = was_live && effect == Effect::Keeps;
                    Place { generation: generation.get(), link: if keeps { old.link } else { 0 }, value: *value }
                }
                ArenaSlot::Free(next) => {
                    let keeps = !was_live && p <= before;
                    Place { generation: 0, link: next.get(), value: if keeps { old.value } else { 0 } }
                }
            };
        }
        if m < before {
            self.places[m..before].fill(Place::default());
        }
        self.header = Header {
            len: arena.len() as u64,
            m,
            root: arena.freelist_root().map_or(0, NonZeroU16::get),
            generation: arena.generation().get(),
        };
    }
}
