#!/usr/bin/env bash
# Runs the tests of bindings/rust, which link the proved library; it is made first, unless NEKTAWUL_LIB_DIR says where one is. With --valgrind the test programs run under
# valgrind's memcheck, which sees every read and write of the library too. With --asan they are built with Rust's address sanitizer, which sees the
# Rust code, and of the library only the memory that it has filled by memset. Ends with status 0 only where all pass and nothing is reported.
set -euo pipefail
cd "$(dirname "$0")/.."

cargo=(cargo test --offline --manifest-path bindings/rust/Cargo.toml)
case "${1:-}" in
"") ;;
--valgrind)
    # Each test program is started under valgrind; the doctest, whose program is built on the fly, is not.
    export CARGO_TARGET_X86_64_UNKNOWN_LINUX_GNU_RUNNER="valgrind --quiet --error-exitcode=1"
    cargo+=(--tests)
    ;;
--asan)
    # A stable compiler takes the unstable flag with RUSTC_BOOTSTRAP. The target is named so that the build script is built without it.
    export RUSTC_BOOTSTRAP=1 RUSTFLAGS="-Zsanitizer=address"
    cargo+=(--tests --target x86_64-unknown-linux-gnu --target-dir bindings/rust/target/asan)
    ;;
*)
    echo "usage: bash bindings/test.sh [--valgrind | --asan]" >&2
    exit 2
    ;;
esac

[ -n "${NEKTAWUL_LIB_DIR:-}" ] || bash bindings/build.sh
"${cargo[@]}"
