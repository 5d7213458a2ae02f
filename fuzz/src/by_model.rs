//! Plays a call on the model.

use crate::call::{Call, Lent, Reply};
use crate::model::answer::{told, Outcome};
use crate::model::{audit, sequence, single, two, walk, whole};

fn answered(call: &Call, lent: &mut Lent) -> Outcome {
    let s = &mut lent.store;
    match *call {
        Call::Insert(value) => single::insert_within_capacity(s, value),
        Call::InsertReallocating(value) => single::insert_reallocating(s, value),
        Call::Remove(handle) => single::remove(s, handle),
        Call::RemoveInx(index) => single::remove_inx(s, index),
        Call::Invalidate(handle) => single::invalidate(s, handle),
        Call::Get(handle) => single::get(s, handle),
        Call::Put(value, handle) => single::put(s, value, handle),
        Call::Clear => whole::clear(s),
        Call::Order => whole::order(s),
        Call::Compress(reset) => whole::compress(s, reset, &mut lent.journal),
        Call::Reserve(places) => whole::reserve(s, places),
        Call::Transfer(generation) => two::transfer(s, &mut lent.other, generation, &mut lent.journal),
        Call::Copy => two::copy(s, &lent.other),
        Call::Advance => walk::advance(s, &mut lent.cursor),
        Call::Drain => walk::drain(s, &mut lent.cursor),
        Call::FindFirst => walk::find_first(s),
        Call::FindLast => walk::find_last(s),
        Call::SetGeneration(generation) => single::set_generation(s, generation),
        Call::IncGeneration => single::inc_generation(s),
        Call::Step => Ok(sequence::step(&mut lent.next, &lent.file, s, &mut lent.journal)),
        Call::New | Call::Audit | Call::Check | Call::LentPlaces | Call::Run => unreachable!("no answer alone"),
    }
}

pub fn play(call: &Call, lent: &mut Lent) -> Reply {
    match call {
        Call::New => {
            lent.store.lay_out();
            Reply::Nothing
        }
        Call::Audit => {
            let (outcome, looks) = audit::audit(&lent.store);
            Reply::Audit(told(outcome), looks)
        }
        Call::Check => Reply::Checked(sequence::check(lent.next, &lent.file, &lent.store)),
        Call::LentPlaces => Reply::Places(sequence::lent_places(&lent.file)),
        Call::Run => {
            let (checked, tally) = sequence::run(&mut lent.next, &lent.file, &mut lent.store, &mut lent.journal);
            Reply::Run(checked, tally)
        }
        _ => Reply::Answer(told(answered(call, lent))),
    }
}
