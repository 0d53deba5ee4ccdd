#!/bin/sh
# Takes over what `rt ci` has proved and built here: the other scripts then build the archive over its libraries and use
# its programs, where they would prove each crate once more.
#
#     tools/take_over.sh         prints the sum of all that is proved and compiled: to be asked for before rt ci
#     tools/take_over.sh SUM     after rt ci has passed, with that sum; exit status 1 where a source has changed since
#
# Needs rt.

set -eu
. "$(dirname "$0")/common.sh"

read_options "$@"
one_word
case $word in
    *[!0-9a-f]*) fail "SUM is what this prints without a word, and not '$word'" ;;
esac
[ "$word_count" = 0 ] || [ ${#word} = 64 ] || fail "SUM is what this prints without a word, and not '$word'"
need rt "as the kit's version is in the sum"
mkdir -p "$build"
sum=$(sources_sum) || fail "the sources cannot all be read"
if [ "$word_count" = 0 ]; then
    echo "$sum"
    exit
fi
if [ "$sum" != "$word" ]; then
    echo "take_over: a source has changed since that sum was taken"
    exit 1
fi
for main in "$root"/crates/*/src/main.rt; do
    name=$(basename "${main%/src/main.rt}")
    program=$root/crates/$name/out/$name
    [ ! -f "$program" ] || stamp "$program" "$sum"
done
echo "$sum" > "$build/passed"
