#!/bin/sh
# Measures the port against the original: run.sh [--merges] FOLDER [ARGUMENTS], or alone: run.sh --slowest [ARGUMENTS].
# FOLDER has the crate xet-core-structures, or is `-`: then cargo takes it from its registry. With --merges it measures
# merges of many shards by the C library, with --slowest the slowest input of each of that library's calls, and
# XET_ARCHIVE is the libxet.a to measure, else that of bindings/out, which bindings/build.sh makes. Without, BENCH_CALLS
# is the archive to measure, else that of crates/bench_calls, which `rt lib` makes. Needs the Rattle toolchain.
set -e
here=$(cd "$(dirname "$0")" && pwd)
program=shard-bench
case "$1" in
    --merges | --slowest) program=${1#--}; shift ;;
esac
if [ $program != slowest ]; then
    [ $# -ge 1 ] || { echo "usage: run.sh [--merges] FOLDER [ARGUMENTS], run.sh --slowest [ARGUMENTS]" >&2; exit 2; }
    folder=$1
    shift
fi

if [ $program != shard-bench ]; then
    if [ -z "$XET_ARCHIVE" ]; then
        "$here/../bindings/build.sh" >&2
        XET_ARCHIVE=$here/../bindings/out/libxet.a
    fi
    XET_ARCHIVE=$(readlink -f "$XET_ARCHIVE")
    export XET_ARCHIVE
else
    if [ -z "$BENCH_CALLS" ]; then
        (cd "$here/../crates/bench_calls" && rt lib >&2)
        BENCH_CALLS=$here/../crates/bench_calls/out/libbench_calls.a
    fi
    # The library's heap, over malloc, realloc and free, is a file of the toolchain.
    XET_HEAP=$(dirname "$(dirname "$(readlink -f "$(command -v rt)")")")/c/liblibc_c.a
    BENCH_CALLS=$(readlink -f "$BENCH_CALLS")
    export BENCH_CALLS XET_HEAP
fi

if [ $program = slowest ]; then
    # The crate of bindings/rust, of which it has the types, looks for libxet.a in a folder.
    XET_LIB_DIR=$(dirname "$XET_ARCHIVE")
    export XET_LIB_DIR
    exec cargo run --release --offline --manifest-path "$here/slowest/Cargo.toml" -- "$@"
fi
set -- --release --manifest-path "$here/Cargo.toml" --bin $program -- "$@"
[ "$folder" = - ] && exec cargo run "$@"
# From the folder, so that its own settings of cargo hold, and without a network.
cd "$folder"
export CARGO_NET_OFFLINE=true
exec cargo run --config "patch.crates-io.xet-core-structures.path=\"$(pwd)\"" "$@"
