#!/usr/bin/env bash
# Plays drawn calls on the library and on the model of document 01, and compares all that each call leaves:
#   bash fuzz/run.sh [CALLS] [SEED]              2,000,000 calls, seed 1
#   bash fuzz/run.sh --wrong all [CALLS] [SEED]  the model with faults made on purpose, each of which must be found
#   bash fuzz/run.sh --valgrind [CALLS] [SEED]   under valgrind: no read or write beside what is lent, no use of undefined bytes
set -euo pipefail
cd "$(dirname "$0")/.."

need() {
    command -v "$1" > /dev/null || { echo "fuzz/run.sh: $1 is missing: $2" >&2; exit 1; }
}

# Builds into fuzz/target/$1, with the other arguments handed on to cargo.
build() {
    cargo build --quiet --release --offline --manifest-path fuzz/Cargo.toml --target-dir "fuzz/target/$1" "${@:2}"
}

need cargo "the model is a Rust program"
# The wrapper's build looks for the archive in target/staticlib, or where NEKTAWUL_LIB_DIR says.
[ -n "${NEKTAWUL_LIB_DIR:-}" ] || bash bindings/build.sh
if [ "${1:-}" = --valgrind ]; then
    need valgrind "it watches the library's reads and writes"
    build exact --features exact
    exec valgrind --quiet --error-exitcode=9 fuzz/target/exact/release/nektawul-fuzz "${@:2}"
fi
build plain
exec fuzz/target/plain/release/nektawul-fuzz "$@"
