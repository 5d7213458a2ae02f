#!/usr/bin/env bash
# Measures the store beside triple_arena and slotmap, all built for release, the same works in one run (docs/PERFORMANCE.md says what they are):
#   bash bench/compare.sh           ratios of times
#   bash bench/compare.sh counts    instructions a call and a place, by callgrind
# Needs the Rattle kit, Rust, triple_arena's source documents (see oracle/compare.sh), Debian's package librust-slotmap-dev, and valgrind for the
# counts. Nothing else should run meanwhile.
set -euo pipefail
cd "$(dirname "$0")/.."

what=${1:-times}
case "$what" in
times | counts) ;;
*)
    echo "usage: bash bench/compare.sh [times | counts]" >&2
    exit 2
    ;;
esac

slotmap=$(dpkg -L librust-slotmap-dev 2> /dev/null | grep '/slotmap-[0-9.]*/Cargo.toml$') || {
    echo "slotmap is missing: install Debian's librust-slotmap-dev" >&2
    exit 1
}
registry=$(dirname "$(dirname "$slotmap")")
work=$(mktemp -d)
trap 'rm -rf "$work"' EXIT

(cd crates/bench_calls && rt run -- insert 64 2 1) > "$work/log" 2>&1 || { cat "$work/log" >&2; exit 1; }
[ -n "${NEKTAWUL_LIB_DIR:-}" ] || bash bindings/build.sh > "$work/log"
cargo build --quiet --release --offline --manifest-path bench/Cargo.toml \
    --config "source.crates-io.replace-with='debian'" --config "source.debian.directory='$registry'"
bench/target/release/nektawul-bench "$what" "$PWD/crates/bench_calls/out/bench_calls" "$work"
