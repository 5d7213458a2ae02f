//! The store that keeps its header: each method gives what its call answers.
use nektawul::{Audit, Cursor, Header, Ptr, Refusal, Row, StepAnswer, Stepped, Store, Tables, TurnedDown, raw};

use crate::lent::row;

const WORKED: &[u8] = include_bytes!("../../../../crates/runseq/data/worked.seq");

/// Tables of so many entries.
struct Room(Vec<u32>, Vec<u16>, Vec<u64>);

impl Room {
    fn of(places: usize) -> Self {
        Self(vec![1; places], vec![1; places], vec![1; places])
    }

    /// A new store in this room.
    fn store(&mut self) -> Store<'_> {
        Store::new(&mut self.0, &mut self.1, &mut self.2)
    }
}

fn handles(store: &Store<'_>) -> Vec<Ptr> {
    store.advancer().map(|p| p.expect("not refused")).collect()
}

#[test]
fn messages() {
    let mut room = Room::of(3);
    let mut store = room.store();
    assert_eq!((store.len(), store.is_empty(), store.capacity(), store.generation()), (0, true, 3, 2));
    let oil = store.insert(10).unwrap();
    let fuel = store.insert_within_capacity(20).unwrap();
    let stand = store.insert_reallocating(30).unwrap();
    assert_eq!([oil, fuel, stand], [1, 2, 3].map(|index| Ptr::new(index, 2)));
    assert_eq!(store.insert(40), Err(Refusal::NotWithinCapacity));
    assert_eq!(store.insert_reallocating(40), Err(Refusal::BeyondMaxCapacity));
    assert_eq!(store.put(fuel, 21), Ok(()));
    assert_eq!(store.get(fuel), Ok(21));
    let moved = store.invalidate(fuel).unwrap();
    assert_eq!(moved, Stepped::Done(Ptr::new(2, 3)));
    assert_eq!(store.get(fuel), Err(Refusal::InvalidPtr));
    assert_eq!(store.remove(oil), Ok(Stepped::Done(10)));
    assert_eq!(store.remove(oil), Err(Refusal::InvalidPtr));
    assert_eq!(store.remove_inx(3), Ok(Stepped::Done((stand, 30))));
    assert_eq!(store.remove_inx(0), Err(Refusal::ZeroGiven));
    assert_eq!(store.len(), 1);
    assert_eq!(store.put(oil, 1), Err(Refusal::InvalidPtr));
    assert_eq!(store.clear(), Ok(Stepped::Done(())));
    assert_eq!(store.header(), Header { len: 0, m: 0, root: 0, generation: 6 });
}

#[test]
fn the_generation_runs_over() {
    let mut room = Room::of(2);
    let mut store = room.store();
    let first = store.insert(1).unwrap();
    store.set_generation(u32::MAX).unwrap();
    assert_eq!(store.remove(first), Ok(Stepped::Overflow(1)));
    assert_eq!(store.generation(), 2);
    // The handle given out first comes again, and shows the newer message.
    assert_eq!(store.insert(2), Ok(first));
    assert_eq!(store.get(first), Ok(2));
    store.set_generation(u32::MAX).unwrap();
    assert!(store.invalidate(first).unwrap().is_overflow());
    store.set_generation(u32::MAX).unwrap();
    assert_eq!(store.remove_inx(1), Ok(Stepped::Overflow((first, 2))));
    store.set_generation(u32::MAX).unwrap();
    assert_eq!(store.inc_generation(), Ok(Stepped::Overflow(())));
    assert_eq!(store.inc_generation().map(Stepped::allow), Ok(()));
    assert_eq!(store.set_generation(0), Err(Refusal::ZeroGiven));
    assert_eq!(store.generation(), 3);
}

#[test]
fn walks() {
    let mut room = Room::of(4);
    let mut store = room.store();
    assert_eq!(handles(&store), []);
    assert_eq!((store.find_first_inx_ptr(), store.find_last_inx_ptr()), (Ok(None), Ok(None)));
    let all: Vec<Ptr> = (1..=4).map(|value| store.insert(value).unwrap()).collect();
    assert_eq!(handles(&store), all);
    store.remove(all[1]).unwrap().allow();
    assert_eq!(handles(&store), [all[0], all[2], all[3]]);
    let down: Vec<Ptr> = store.advancer_at(Cursor::down_from(3)).map(Result::unwrap).collect();
    assert_eq!(down, [all[2], all[0]]);
    assert_eq!(store.find_first_inx_ptr(), Ok(Some(all[0])));
    assert_eq!(store.find_last_inx_ptr(), Ok(Some(all[3])));
    // The store may change between two steps of a cursor.
    let mut cursor = Cursor::up_from(1);
    assert_eq!(store.advance(&mut cursor), Ok(Some(all[0])));
    store.remove(all[2]).unwrap().allow();
    assert_eq!(store.advance(&mut cursor), Ok(Some(all[3])));
    assert_eq!(store.advance(&mut cursor), Ok(None));
    assert_eq!(store.advance(&mut Cursor::SPENT.clone()), Ok(None));
}

#[test]
fn drains() {
    let mut room = Room::of(3);
    let mut store = room.store();
    let all: Vec<Ptr> = (1..=3).map(|value| store.insert(value).unwrap()).collect();
    let taken: Vec<(Ptr, u64)> = store.drain().map(|taken| taken.unwrap().allow()).collect();
    assert_eq!(taken, [(all[0], 1), (all[1], 2), (all[2], 3)]);
    assert_eq!(store.header(), Header { len: 0, m: 0, root: 0, generation: 5 });
}

#[test]
fn a_drain_that_is_dropped_withdraws_the_rest() {
    let mut room = Room::of(3);
    let mut store = room.store();
    let all: Vec<Ptr> = (1..=3).map(|value| store.insert(value).unwrap()).collect();
    let first = store.drain().next();
    assert_eq!(first, Some(Ok(Stepped::Done((all[0], 1)))));
    // One removal and one clear.
    assert_eq!(store.header(), Header { len: 0, m: 0, root: 0, generation: 4 });
    assert_eq!(store.get(all[2]), Err(Refusal::InvalidPtr));
    assert_eq!(store.drain_at(&mut Cursor::up_from(1)), Ok(None));
}

#[test]
fn a_refused_walk_ends() {
    let mut room = Room::of(3);
    room.1.pop();
    let mut store = room.store();
    assert_eq!(store.advancer().collect::<Vec<_>>(), [Err(Refusal::TablesUnfit)]);
    assert_eq!(store.drain().collect::<Vec<_>>(), [Err(Refusal::TablesUnfit)]);
    assert_eq!(store.audit(), Err(Refusal::TablesUnfit));
    assert_eq!(store.insert(1), Err(Refusal::TablesUnfit));
}

#[test]
fn order_reserve_and_audit() {
    let mut room = Room::of(3);
    let mut store = room.store();
    let all: Vec<Ptr> = (1..=3).map(|value| store.insert(value).unwrap()).collect();
    store.remove(all[0]).unwrap().allow();
    store.remove(all[1]).unwrap().allow();
    assert_eq!(store.header().root, 2);
    assert_eq!(store.canonicalize_freelist(), Ok(()));
    assert_eq!(store.header().root, 1);
    assert_eq!(store.reallocate_min_capacity(3), Ok(()));
    assert_eq!(store.reallocate_min_capacity(4), Err(Refusal::BeyondMaxCapacity));
    assert_eq!(store.reallocate_min_capacity(65536), Err(Refusal::AllocError));
    assert_eq!(store.audit().map(|audit| audit.verdict), Ok(0));
    let (mut header, tables) = store.into_parts();
    header.root = 0;
    let store = Store::of(header, tables);
    assert!(matches!(store.audit(), Ok(Audit { verdict: 4, looks: 0..=5 })));
}

#[test]
fn compress_gives_its_rows() {
    let mut room = Room::of(3);
    let mut store = room.store();
    let all: Vec<Ptr> = (1..=3).map(|value| store.insert(value).unwrap()).collect();
    store.remove(all[0]).unwrap().allow();
    let mut journal = [Row::default(); 3];
    assert_eq!(store.compress_with(false, &mut journal[..1]), Err(Refusal::JournalShort));
    let rows = store.compress_with(false, &mut journal).unwrap();
    assert_eq!(rows, Stepped::Done(&[row((2, 2), (1, 4), false), row((3, 2), (2, 4), false)][..]));
    assert_eq!(store.get(Ptr::new(1, 4)), Ok(2));
    assert_eq!(store.compress_with(true, &mut journal).unwrap().allow().len(), 2);
    assert_eq!(store.generation(), 2);
    store.set_generation(u32::MAX).unwrap();
    assert!(store.compress_with(false, &mut journal).unwrap().is_overflow());
    store.set_generation(1).unwrap();
    assert_eq!(store.compress_with(true, &mut journal), Err(Refusal::Unsound));
}

#[test]
fn two_stores() {
    let (mut room, mut other_room, mut small_room) = (Room::of(3), Room::of(3), Room::of(1));
    let (mut store, mut other, mut small) = (room.store(), other_room.store(), small_room.store());
    let kept = store.insert(10).unwrap();
    store.insert(20).unwrap();
    assert_eq!(other.clone_from_with(&store), Ok(()));
    assert_eq!((other.get(kept), other.header()), (Ok(10), store.header()));
    assert_eq!(small.clone_from_with(&store), Err(Refusal::BeyondMaxCapacity));
    let mut journal = [Row::default(); 3];
    assert_eq!(small.transfer_reallocating(9, &mut store, &mut journal), Err(Refusal::BeyondMaxCapacity));
    assert_eq!(other.transfer_reallocating(9, &mut store, &mut journal[..1]), Err(Refusal::JournalShort));
    assert_eq!(other.transfer_reallocating(0, &mut store, &mut journal), Err(Refusal::ZeroGiven));
    let rows = other.transfer_reallocating(9, &mut store, &mut journal).unwrap();
    assert_eq!(rows, [row((1, 2), (1, 9), false), row((2, 2), (2, 9), false)]);
    assert_eq!((store.len(), other.len()), (0, 2));
    assert!(store.is_empty() && !other.is_empty());
    assert_eq!(store.header().m, 1);
}

#[test]
fn a_sequence() {
    let mut room = Room::of(raw::lent_places(WORKED));
    let mut store = room.store();
    let mut journal = [Row::default(); 3];
    let mut next = 1;
    assert_eq!(store.check(next, WORKED), Ok(()));
    assert!(matches!(store.step(&mut next, WORKED, &mut journal), StepAnswer::Ran(_)));
    assert_eq!((next, store.get(Ptr::new(1, 2))), (2, Ok(10)));
    let tally = store.run(&mut next, WORKED, &mut journal).unwrap();
    assert_eq!((next, tally[0], tally[6]), (15, [3, 0, 1], [2, 0, 0]));
    assert_eq!(store.step(&mut next, WORKED, &mut journal), StepAnswer::End);
    assert_eq!(store.header(), Header { len: 0, m: 0, root: 0, generation: 2 });
}

#[test]
fn a_sequence_turned_down() {
    let mut room = Room::of(3);
    let mut store = room.store();
    let mut file = WORKED.to_vec();
    file[8 + 16 * 13] = 11;
    let down = TurnedDown { refusal: Refusal::WrongCommand, fault: 14 };
    let mut next = 1;
    assert_eq!(store.check(next, &file), Err(down));
    assert_eq!(store.step(&mut next, &file, &mut []), StepAnswer::TurnedDown(Refusal::WrongCommand, 14));
    assert_eq!(store.run(&mut next, &file, &mut []), Err(down));
    assert_eq!((next, store.len()), (1, 0));
    assert_eq!(down.to_string(), format!("{}: command 14", Refusal::WrongCommand));
    let wrong = TurnedDown { refusal: Refusal::WrongPlaces, fault: 0 };
    assert_eq!(store.check(0, WORKED), Err(wrong));
    assert_eq!(wrong.to_string(), Refusal::WrongPlaces.to_string());
}

#[test]
fn tables_as_they_stand() {
    let (mut generations, mut links, mut values) = ([5, 0], [0, 2], [10, 0]);
    let tables = Tables { generations: &mut generations, links: &mut links, values: &mut values };
    let store = Store::of(Header { len: 1, m: 2, root: 2, generation: 6 }, tables);
    assert_eq!(store.get(Ptr::new(1, 5)), Ok(10));
    assert_eq!(store.audit().map(|audit| audit.verdict), Ok(0));
    assert_eq!(store.tables().values, [10, 0]);
}

#[test]
fn refusals_have_the_header_files_words() {
    let header = include_str!("../../../../include/nektawul.h");
    for (number, refusal) in (1..).zip(Refusal::ALL) {
        assert_eq!((refusal.number(), Refusal::of(number)), (number, Some(refusal)));
        assert!(header.contains(&format!("return \"{refusal}\";")), "{refusal}");
    }
    assert_eq!((Refusal::of(0), Refusal::of(14)), (None, None));
}
