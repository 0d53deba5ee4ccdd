#!/bin/sh
# Verdicts without a restart, every one compared, with constant memory. A line tells how far it is, every ten seconds at
# the latest.
#
#     tools/soak.sh             for 12 hours
#     tools/soak.sh SECONDS
#
#     --archive FILE     uses this archive and does not build the library
#     --stand-in         uses the plain C implementation, to test these tools
#
# Needs gcc and python3, and rt unless an archive is given.

set -eu
. "$(dirname "$0")/common.sh"

takes='--archive --stand-in'
read_options "$@"
one_word
seconds=$((12 * 60 * 60))
[ "$word_count" -eq 0 ] || seconds=$word
is_count "$seconds" || fail "SECONDS is a whole number from 1 on, such as 600, and not '$seconds'"
need_compiler
need_python
need_archive

echo "soak: prepares the library, the program and its inputs; then verdicts for $seconds s"
find_archive smallwood_c
object keccak.o plain/keccak.c
object converse.o plain/converse.c
# shellcheck disable=SC2086
"$CC" $CFLAGS "$tools/soak.c" "$tools/instance.c" "$build/converse.o" "$build/keccak.o" "$archive" -o "$build/soak"
python3 "$tools/soak_inputs.py" "$build/soak.inputs"
exec "$build/soak" "$build/soak.inputs" "$seconds"
