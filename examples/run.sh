#!/usr/bin/env bash
# Builds the display loop, and the header as C++ too, runs the loop on document 01's worked sequence, and compares what it prints with
# examples/display.txt. With --valgrind it runs under valgrind's memcheck; with --asan it is built with the address and undefined behaviour
# sanitizers, which see the loop and the calls over a nektawul_store, but not into the library. The library is made first, unless NEKTAWUL_LIB_DIR says where one is.
# Ends with status 0 only where nothing differs and nothing is reported.
set -euo pipefail
cd "$(dirname "$0")/.."

archive=${NEKTAWUL_LIB_DIR:-target/staticlib}/libnektawul.a
out=target/examples
flags=(-std=c11 -Wall -Wextra -Wpedantic -Werror -O2)
under=()
case "${1:-}" in
"") ;;
--valgrind) under=(valgrind --quiet --error-exitcode=1) ;;
--asan) flags+=(-g -fsanitize=address,undefined -fno-sanitize-recover=all) ;;
*)
    echo "usage: bash examples/run.sh [--valgrind | --asan]" >&2
    exit 2
    ;;
esac

[ -n "${NEKTAWUL_LIB_DIR:-}" ] || bash bindings/build.sh
mkdir -p "$out"
echo '#include "nektawul.h"' | "${CXX:-g++}" -std=c++11 -Wall -Wextra -Wpedantic -Werror -Iinclude -fsyntax-only -x c++ -
"${CC:-gcc}" "${flags[@]}" -Iinclude examples/display.c "$archive" -o "$out/display"
"${under[@]}" "$out/display" crates/runseq/data/worked.seq > "$out/display.txt"
diff examples/display.txt "$out/display.txt"
# The first listing played by steps is the one that runseq prints, but for its last line.
diff <(sed '$d' crates/runseq/stdout) <(sed -n '/^== a sequence/,/^end/p' "$out/display.txt" | sed '1d;$d')
echo "examples/display.txt: the same"
