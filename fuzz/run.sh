#!/bin/sh
# Makes all calls of xet.h on corrupted shards: run.sh [SECONDS [SEED]], or run.sh --case NUMBER SEED for one case.
# SECONDS are of the processor's time, and an hour without arguments. XET_ARCHIVE names the libxet.a to test, else
# bindings/build.sh makes it. $CC is the compiler, else cc. Where programs with sanitizers can't be built or run, it goes
# without them, and says so.
set -e
here=$(cd "$(dirname "$0")" && pwd)
if [ -z "$XET_ARCHIVE" ]; then
    "$here/../bindings/build.sh" >&2
    XET_ARCHIVE=$here/../bindings/out/libxet.a
fi
room=$(mktemp -d)
trap 'rm -rf "$room"' EXIT
cc="${CC:-cc} -std=c11 -D_DEFAULT_SOURCE -O1 -Wall -Wextra -Werror"
sanitizers="-fsanitize=address,undefined -fno-sanitize-recover=all -g"
echo 'int main(void) { return 0; }' >"$room/nothing.c"
if ! { $cc $sanitizers "$room/nothing.c" -o "$room/nothing" && "$room/nothing"; } >"$room/why" 2>&1; then
    echo "fuzz: a program with sanitizers can't be built or run here, so it runs without them"
    sanitizers=
fi
$cc $sanitizers "$here"/*.c "$XET_ARCHIVE" -o "$room/fuzz"
python3 "$here/corpus.py" "$room/corpus"
case "$1" in
    --case) set -- --case "$2" "$3" ;;
    *) set -- "${1:-3600}" "${2:-$(od -An -N4 -tu4 /dev/urandom | tr -d ' ')}" ;;
esac
"$room/fuzz" "$@" "$room"/corpus/*.mdb
