#!/bin/sh
# Installs the library for C: headers, archive, smallwood.pc for pkg-config, a package file for CMake. No file holds the
# prefix, so that it may be moved or packed afterwards.
#
#     tools/install.sh PREFIX
#
#     --archive FILE     installs this archive and does not build the library
#
# Needs rt unless an archive is given: it proves the library first, which from nothing takes as long as most of `rt ci`.

set -eu
. "$(dirname "$0")/common.sh"

takes='--archive'
read_options "$@"
[ "$word_count" = 1 ] || fail "it needs one prefix, such as \$HOME/smallwood"
prefix=$word
[ ! -e "$prefix" ] || [ -d "$prefix" ] || fail "$prefix is no directory"
need_archive
version=$(library_version)
find_archive smallwood_c

# filled FILE: the file with the version in it
filled() {
    sed -e "s/@VERSION@/$version/" -e "s/@MAJOR@/${version%%.*}/" "$root/packaging/$1"
}

include=$prefix/include lib=$prefix/lib
headers='smallwood.h smallwood_wipe.h smallwood_draw.h'
mkdir -p "$include" "$lib/pkgconfig" "$lib/cmake/smallwood" 2> /dev/null || fail "cannot write to $prefix"
for header in $headers; do cp "$root/include/$header" "$include/"; done
cp "$archive" "$lib/libsmallwood.a"
filled smallwood.pc.in > "$lib/pkgconfig/smallwood.pc"
filled smallwood-config.cmake > "$lib/cmake/smallwood/smallwood-config.cmake"
filled smallwood-config-version.cmake.in > "$lib/cmake/smallwood/smallwood-config-version.cmake"
installed=
for header in $headers; do installed="$installed include/$header"; done
installed="$installed lib/libsmallwood.a lib/pkgconfig/smallwood.pc"
for file in $installed lib/cmake/smallwood/smallwood-config.cmake lib/cmake/smallwood/smallwood-config-version.cmake; do
    chmod 644 "$prefix/$file"
    echo "$prefix/$file"
done
