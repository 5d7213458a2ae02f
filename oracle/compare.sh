#!/usr/bin/env bash
# Compares the store with the unchanged Rust: proves and builds the two Rattle programs, builds the Rust, and runs both on the same calls.
# Needs the Rattle kit, Rust, and the source documents in ../shared/docs/src/src (or in TRIPLE_ARENA_SRC: the folder with arena, fundamental and stack).
# With a number, so many rounds of lists and sequences are drawn; one otherwise. Ends with status 0 only where nothing differs.
set -e
cd "$(dirname "$0")/.."
for program in replay_calls runseq; do
    (cd "crates/$program" && rt run < /dev/null > /dev/null)
done
cargo run --release --offline --manifest-path oracle/Cargo.toml -- compare "$@"
