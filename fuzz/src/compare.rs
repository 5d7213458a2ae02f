//! Whether library and model agree, and what is shown where they do not.

use crate::call::{Call, Lent, Reply};
use crate::model::store::Store;

/// What one side made of a call.
pub struct Side {
    pub lent: Lent,
    pub reply: Reply,
}

/// The audit's look count is left open up to m + 2; all else is the same.
fn replies_agree(library: &Reply, model: &Reply, m: u16) -> bool {
    match (library, model) {
        (Reply::Audit(given, looks), Reply::Audit(wanted, _)) => given == wanted && *looks <= m as u32 + 2,
        _ => library == model,
    }
}

pub fn agree(library: &Side, model: &Side) -> bool {
    replies_agree(&library.reply, &model.reply, model.lent.store.header.m) && library.lent == model.lent
}

/// A word of a table, or a dash where the table is shorter than the others.
fn word<T: ToString>(table: &[T], i: usize) -> String {
    table.get(i).map_or("-".to_string(), T::to_string)
}

/// Equal neighbours once, with their number.
fn folded(words: Vec<String>) -> String {
    let runs = words.chunk_by(|a, b| a == b);
    let shown = runs.map(|run| if run.len() == 1 { run[0].clone() } else { format!("{}*{}", run[0], run.len()) });
    shown.collect::<Vec<_>>().join(" ")
}

/// `lengths: len m root generation [generation:link:value ...]`.
fn store(s: &Store) -> String {
    let lengths = [s.generations.len(), s.links.len(), s.values.len()];
    let place = |i| format!("{}:{}:{}", word(&s.generations, i), word(&s.links, i), word(&s.values, i));
    let places = folded((0..lengths.into_iter().max().unwrap_or(0)).map(place).collect());
    let h = s.header;
    format!("{lengths:?}: {} {} {} {} [{places}]", h.len, h.m, h.root, h.generation)
}

fn journal(lent: &Lent) -> String {
    let rows = lent.journal.iter().map(|row| {
        let (old, new) = (row.old, row.new);
        format!("({},{})>({},{}) {}", old.index, old.generation, new.index, new.generation, row.overflow)
    });
    folded(rows.collect())
}

fn parts(lent: &Lent) -> [(&'static str, String); 6] {
    [
        ("store", store(&lent.store)),
        ("other", store(&lent.other)),
        ("journal", journal(lent)),
        ("cursor", format!("{:?}", lent.cursor)),
        ("next", lent.next.to_string()),
        ("file", folded(lent.file.iter().map(u8::to_string).collect())),
    ]
}

/// All that a call is lent, a line each.
pub fn shown(call: &Call, lent: &Lent) -> String {
    let lines = parts(lent).map(|(name, text)| format!("  {name}: {text}\n"));
    format!("{call:?}\n{}", lines.concat())
}

/// What the two sides have made differently.
pub fn difference(library: &Side, model: &Side) -> String {
    let mut text = format!("  library: {:?}\n  model:   {:?}\n", library.reply, model.reply);
    for ((name, by_library), (_, by_model)) in parts(&library.lent).into_iter().zip(parts(&model.lent)) {
        if by_library != by_model {
            text += &format!("  {name} by library: {by_library}\n  {name} by model:   {by_model}\n");
        }
    }
    text
}
