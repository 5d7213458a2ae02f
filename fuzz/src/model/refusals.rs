//! Refusals 1 to 7, each as document 01 lists it. A call names those that it tests, in their order.

use super::answer::{Handle, Row};
use super::audit::verdict;
use super::store::{Store, MOST_PLACES};

pub type Fit = Result<(), u8>;

fn refuse_if(number: u8, unfit: bool) -> Fit {
    if unfit {
        Err(number)
    } else {
        Ok(())
    }
}

/// 1: the tables differ in length or are too long.
pub fn tables(s: &Store) -> Fit {
    let c = s.generations.len();
    refuse_if(1, s.links.len() != c || s.values.len() != c || c > MOST_PLACES)
}

/// 2: the header cannot be that of a store with these tables.
fn header(s: &Store) -> Fit {
    let h = s.header;
    refuse_if(2, h.m as usize > s.capacity() || h.len > h.m || h.root > h.m || h.generation == 0)
}

/// 1 and 2.
pub fn store(s: &Store) -> Fit {
    tables(s)?;
    header(s)
}

/// 1 on both stores, then 2 on both.
pub fn stores(d: &Store, s: &Store) -> Fit {
    tables(d)?;
    tables(s)?;
    header(d)?;
    header(s)
}

/// 3: an index or a generation given is 0.
pub fn argument(given: u32) -> Fit {
    refuse_if(3, given == 0)
}

/// 3 for both numbers of a handle.
pub fn handle(h: Handle) -> Fit {
    argument(h.index as u32)?;
    argument(h.generation)
}

/// 4 for an insert: a root that cannot be taken.
pub fn root(s: &Store) -> Fit {
    let h = s.header;
    if h.root == 0 {
        return Ok(());
    }
    let link = s.link(h.root);
    refuse_if(4, s.live(h.root) || link == 0 || link > h.m || h.len == h.m)
}

/// 4 for a removal: a live place that the header says is not.
pub fn removal(s: &Store, index: u16) -> Fit {
    refuse_if(4, s.live(index) && (s.header.len == 0 || s.header.root == index))
}

/// 4 for order and reserve: `len` is not the number of live places.
pub fn count(s: &Store) -> Fit {
    refuse_if(4, s.live_places().len() != s.header.len as usize)
}

/// 4 for compress, transfer and copy: the audit is not 0.
pub fn sound(s: &Store) -> Fit {
    refuse_if(4, verdict(s).0 != 0)
}

/// 5: fewer rows than messages to be moved.
pub fn rows(journal: &[Row], messages: u16) -> Fit {
    refuse_if(5, journal.len() < messages as usize)
}

/// 6 for an index: no live place.
pub fn index(s: &Store, index: u16) -> Fit {
    refuse_if(6, !s.live(index))
}

/// 6 for a handle: no live place of its generation.
pub fn named(s: &Store, h: Handle) -> Fit {
    refuse_if(6, !s.live(h.index) || s.generation(h.index) != h.generation)
}

/// 7: no root, and no place above the stack.
pub fn room(s: &Store) -> Fit {
    refuse_if(7, s.header.root == 0 && s.header.m as usize == s.capacity())
}
