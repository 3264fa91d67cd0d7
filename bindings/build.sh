#!/bin/sh
# Builds libxet.a and libxet.so of the static library crates/xet_c, whose archive `rt lib` makes unless it was built of
# the very sources that are here.
#
#   build.sh           puts libxet.a into bindings/out, and libxet.so.0 beside the Python module
#   build.sh PREFIX    installs PREFIX/include/xet.h, PREFIX/lib/libxet.a and libxet.so, and the files by which pkg-config
#                      and CMake find them, PREFIX/lib/pkgconfig/xet.pc and PREFIX/lib/cmake/xet; $DESTDIR is set before
#                      PREFIX where they are to be moved there later
#
# $CC is the C compiler, else cc. Needs the Rattle toolchain on the path.
set -e
top=$(cd "$(dirname "$0")/.." && pwd)
archive="$top/crates/xet_c/out/libxet_c.a"
version=$(cat "$top/VERSION")
# A program that was linked with a library runs with any that has the same name of this kind.
soname=libxet.so.${version%%.*}
case "$1" in
    -*) echo "usage: build.sh [PREFIX]" >&2; exit 2 ;;
    "" | /*) prefix=$1 ;;
    *) prefix=$(pwd)/$1 ;;
esac

command -v rt >/dev/null || { echo "build.sh: rt is not on the path" >&2; exit 1; }
sources=$(cd "$top/.ci" && python3 -B -m library.archive)
if [ ! -f "$archive" ] || [ "$(cat "$archive.of" 2>/dev/null)" != "$sources" ]; then
    rm -f "$archive.of"
    (cd "$top/crates/xet_c" && rt lib)
    echo "$sources" >"$archive.of"
fi

# The library's heap, over malloc, realloc and free, is a file of the toolchain.
kit=$(dirname "$(dirname "$(readlink -f "$(command -v rt)")")")
room=$(mktemp -d) beside=
trap 'rm -rf "$room" "$beside"' EXIT
cd "$room"
mkdir parts
(cd parts && "$kit/toolchain/bin/llvm-ar" x "$archive" && "$kit/toolchain/bin/llvm-ar" x "$kit/c/liblibc_c.a")

# Of both libraries only the calls of xet.h are seen.
"$kit/toolchain/bin/ld.lld" -r -o xet.o parts/*.o
if command -v objcopy >/dev/null; then
    objcopy --wildcard --keep-global-symbol='xet_*' xet.o
else
    echo "build.sh: objcopy is not there, so libxet.a shows names that are not in xet.h" >&2
fi
"$kit/toolchain/bin/llvm-ar" rcs libxet.a xet.o
echo '{ global: xet_*; local: *; };' >exports
${CC:-cc} -shared -o "libxet.so.$version" -Wl,-soname,"$soname" -Wl,--whole-archive libxet.a -Wl,--no-whole-archive \
    -Wl,--version-script=exports -Wl,-z,defs -Wl,-z,noexecstack -Wl,-z,relro -Wl,-z,now

# Puts a file at a path, in place of one that is there: a process that has mapped that one keeps it, and if the copy
# fails, as on a full disk, it stays.
put() {
    beside=$(mktemp -d "${2%/*}/.new.XXXXXX")
    cp "$1" "$beside/new"
    mv -f "$beside/new" "$2"
    rmdir "$beside"
}

if [ -z "$prefix" ]; then
    mkdir -p "$top/bindings/out"
    put libxet.a "$top/bindings/out/libxet.a"
    put "libxet.so.$version" "$top/bindings/python/xet_shards/$soname"
    exit
fi
# pkg-config takes a space for the end of a path, unless it is escaped.
cat >xet.pc <<END
prefix=$(printf %s "$prefix" | sed 's/ /\\ /g')
includedir=\${prefix}/include
libdir=\${prefix}/lib

Name: xet
Description: Metadata shards of Xet storage, as bytes
Version: $version
Cflags: -I\${includedir}
Libs: -L\${libdir} -lxet
END
cat >xet-config.cmake <<END
# The targets xet::xet, the shared object, and xet::static, the archive.
get_filename_component(xet_LIB_DIR "\${CMAKE_CURRENT_LIST_DIR}/../.." ABSOLUTE)
find_path(xet_INCLUDE_DIR xet.h HINTS "\${xet_LIB_DIR}/../include" "\${xet_LIB_DIR}/../../include" NO_DEFAULT_PATH)
if(NOT TARGET xet::xet)
  add_library(xet::xet SHARED IMPORTED)
  set_target_properties(xet::xet PROPERTIES IMPORTED_LOCATION "\${xet_LIB_DIR}/libxet.so.$version"
    IMPORTED_SONAME "$soname" INTERFACE_INCLUDE_DIRECTORIES "\${xet_INCLUDE_DIR}")
  add_library(xet::static STATIC IMPORTED)
  set_target_properties(xet::static PROPERTIES IMPORTED_LOCATION "\${xet_LIB_DIR}/libxet.a"
    INTERFACE_INCLUDE_DIRECTORIES "\${xet_INCLUDE_DIR}")
endif()
END
# A program takes its version or a later one with the same first number.
cat >xet-config-version.cmake <<END
set(PACKAGE_VERSION "$version")
if(PACKAGE_FIND_VERSION VERSION_EQUAL PACKAGE_VERSION)
  set(PACKAGE_VERSION_EXACT TRUE)
endif()
if(PACKAGE_FIND_VERSION VERSION_LESS_EQUAL PACKAGE_VERSION AND
   (PACKAGE_FIND_VERSION_MAJOR STREQUAL "" OR PACKAGE_FIND_VERSION_MAJOR EQUAL ${version%%.*}))
  set(PACKAGE_VERSION_COMPATIBLE TRUE)
endif()
END
to=$DESTDIR$prefix
mkdir -p "$to/include" "$to/lib/pkgconfig" "$to/lib/cmake/xet"
put "$top/bindings/c/xet.h" "$to/include/xet.h"
put libxet.a "$to/lib/libxet.a"
put "libxet.so.$version" "$to/lib/libxet.so.$version"
ln -sf "libxet.so.$version" "$to/lib/$soname"
ln -sf "$soname" "$to/lib/libxet.so"
put xet.pc "$to/lib/pkgconfig/xet.pc"
put xet-config.cmake "$to/lib/cmake/xet/xet-config.cmake"
put xet-config-version.cmake "$to/lib/cmake/xet/xet-config-version.cmake"
