//! The store of document 01, written from the paper alone. It is meant to be read beside it: clear before fast.

pub mod answer;
pub mod audit;
pub mod refusals;
pub mod sequence;
pub mod single;
pub mod store;
pub mod two;
pub mod walk;
pub mod whole;

#[cfg(test)]
mod tests;
