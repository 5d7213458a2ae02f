#!/usr/bin/env bash
# Repeats all the evidence of docs/EVIDENCE.md, and tells of each part whether it passed and how many seconds it took:
#   bash tools/evidence.sh              all parts, in this order
#   bash tools/evidence.sh PART..       some of them: gate trace library fuzz oracle
# Needs the Rattle kit, Rust, gcc and g++, valgrind, and the source documents of the approval file (in ../shared/docs, or where DOCUMENT_01 and
# TRIPLE_ARENA_SRC say). Ends with status 0 only where every part passed. What a part prints is shown where it fails.
set -u
cd "$(dirname "$0")/.."

gate() { bash .ci/run; }

trace() { python3 tools/trace.py "${DOCUMENT_01:-../shared/docs/01-scope.md}"; }

# The library's build, the Rust crate's tests and the C example, plain, under valgrind and with the sanitizers.
library() {
    bash bindings/build.sh || return 1
    local how
    for how in "" --valgrind --asan; do
        bash bindings/test.sh $how && bash examples/run.sh $how || return 1
    done
}

# The model's own tests; drawn calls on library and model; faults made on purpose in the model.
fuzz() {
    cargo test --quiet --release --offline --manifest-path fuzz/Cargo.toml --target-dir fuzz/target/plain &&
        bash fuzz/run.sh 28000000 && bash fuzz/run.sh --valgrind 1000000 && bash fuzz/run.sh --wrong all
}

oracle() { bash oracle/compare.sh; }

parts=("$@")
[ $# -gt 0 ] || parts=(gate trace library fuzz oracle)
said=$(mktemp)
trap 'rm -f "$said"' EXIT
status=0
for part in "${parts[@]}"; do
    case "$part" in
    gate | trace | library | fuzz | oracle) ;;
    *)
        echo "tools/evidence.sh: no part $part" >&2
        exit 2
        ;;
    esac
    start=$SECONDS
    if "$part" > "$said" 2>&1; then
        echo "$part: passed, $((SECONDS - start)) s: $(tail -n 1 "$said" | cut -c 1-200)"
    else
        cat "$said"
        echo "$part: FAILED, $((SECONDS - start)) s"
        status=1
    fi
done
exit "$status"
