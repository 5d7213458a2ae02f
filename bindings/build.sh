#!/usr/bin/env bash
# Makes target/staticlib/libnektawul.a, the library for C and Rust: the crate `nektawul` is proved and written as an
# archive by `rt lib`. Then the library is held against include/nektawul.h: it defines the header's functions, each once,
# and nothing else; it asks for no other function, but for C's own that copy and fill memory; it has no data that can
# change. Needs the Rattle kit.
set -euo pipefail
cd "$(dirname "$0")/.."

out=target/staticlib
built=$out/libnektawul.a

# Whether a file is there and no older than any file of the crates, but for what a check keeps in a crate's folder out/.
fresh() {
    [ -e "$1" ] && [ -z "$(find crates/*/* crates.txt -name out -prune -o -newer "$1" -print -quit)" ]
}

# The functions of the header, those over a nektawul_store left out.
declared() {
    sed -nE 's/^[a-z_0-9]+ (nektawul_[a-z_]+)\(.*/\1/p' include/nektawul.h | sort
}

# The symbols of an archive of the given kinds (nm's letters).
symbols() {
    nm "$1" | awk -v kinds="$2" 'NF > 1 && $(NF - 1) ~ "^[" kinds "]$" { print $NF }' | sort
}

# Fails with a message where the two lists differ.
same() {
    diff "$2" "$3" >&2 || { echo "libnektawul.a: $1" >&2; exit 1; }
}

# Holds an archive against the header.
hold() {
    same "the header's functions are not just those defined" <(declared) <(symbols "$1" TDBRVWu)
    same "it asks for other functions" /dev/null <(symbols "$1" U | grep -vxE 'mem(cpy|move|set)' || true)
    same "it has data that can change" /dev/null <(size "$1" | awk 'NR > 1 && $2 + $3 > 0')
}

if ! fresh "$built"; then
    command -v rt > /dev/null ||
        { echo "rt is missing: the library is proved and built with the Rattle kit" >&2; exit 1; }
    rm -f "$built"
    mkdir -p "$out"
    (cd crates/nektawul && rt lib)
    hold crates/nektawul/out/libnektawul.a
    cp crates/nektawul/out/libnektawul.a "$built"
fi
hold "$built"
echo "$built: $(declared | wc -l) functions, $(stat -c %s "$built") bytes"
