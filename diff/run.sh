#!/bin/sh
# Compares the port with the original: run.sh FOLDER [ARGUMENTS]. FOLDER has the crate xet-core-structures, or is `-`:
# then cargo takes it from its registry. XET_ARCHIVE is the archive to compare, else the libxet.a that
# bindings/build.sh makes. Needs the Rattle toolchain on the path.
set -e
here=$(cd "$(dirname "$0")" && pwd)
[ $# -ge 1 ] || { echo "usage: run.sh FOLDER [ARGUMENTS]" >&2; exit 2; }
folder=$1
shift

if [ -z "$XET_ARCHIVE" ]; then
    "$here/../bindings/build.sh" >&2
    XET_ARCHIVE=$here/../bindings/out/libxet.a
fi
XET_ARCHIVE=$(readlink -f "$XET_ARCHIVE")
export XET_ARCHIVE

[ "$folder" = - ] && exec cargo run --release --manifest-path "$here/Cargo.toml" -- "$@"
# From the folder, so that its own settings of cargo hold, and without a network.
cd "$folder"
export CARGO_NET_OFFLINE=true
exec cargo run --release --manifest-path "$here/Cargo.toml" \
    --config "patch.crates-io.xet-core-structures.path=\"$(pwd)\"" -- "$@"
