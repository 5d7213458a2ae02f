//! Every call of the library: its answers and refusals, and every word that it leaves. What is expected was worked out by hand from document 01.
mod cursors;
mod journals;
mod lent;
mod messages;
mod sequences;
mod store;
mod whole;
