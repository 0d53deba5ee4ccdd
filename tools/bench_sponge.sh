#!/bin/sh
# Cost of the sponge beside plain C and OpenSSL, at five lengths of the string; prints Markdown tables: times, and
# instructions where valgrind is installed.
#
#     tools/bench_sponge.sh
#
#     --archive FILE     measures this archive of crate sponge_bench_c and does not build it
#     --before FILE      measures this older archive of it too, in the same runs: the tables have it as `before`
#
# Needs gcc, OpenSSL with its headers (libssl-dev), rt unless an archive is given, and binutils for --before. It fails
# where the digests are not the same.

set -eu
. "$(dirname "$0")/common.sh"

takes='--archive --before'
read_options "$@"
no_words
need_compiler
need_archive
need_before
has_openssl EVP_shake256 || fail "OpenSSL's headers are not installed (Debian: libssl-dev)"
find_archive sponge_bench_c
find_before sponge_bench

object keccak.o plain/keccak.c
object evp.o plain/evp.c
# With all symbols bound at the start, no count includes the linker's work.
# shellcheck disable=SC2086
"$CC" $CFLAGS "$tools/bench_sponge.c" "$build/keccak.o" "$build/evp.o" $before "$archive" -lcrypto -Wl,-z,now \
    -o "$build/bench_sponge"

instructions() {
    for bytes in $("$build/bench_sponge" lengths); do
        for entry in $("$build/bench_sponge" entries); do
            count_inside "$entry" "$build/bench_sponge" once "$entry" "$bytes"
        done
    done | "$build/bench_sponge" instructions
}

"$build/bench_sponge"
if command -v valgrind > /dev/null 2>&1; then
    instructions
else
    echo "valgrind is not installed: instructions are not counted"
fi
