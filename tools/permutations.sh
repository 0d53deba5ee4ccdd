#!/bin/sh
# Permutations of Keccak that a check runs, counted as they run, beside what the entry for permutations gives; prints a
# Markdown table. Exit status 1 after a difference.
#
#     tools/permutations.sh
#
#     --archive FILE     counts in this archive and does not build the library
#     --stand-in         counts in the plain C implementation, one string at a time, to test these tools
#
# Needs gcc, valgrind, nm, and rt unless an archive is given. The library's permutation is a function of its own:
# callgrind counts its calls inside smallwood_check. Where an archive has no such function, there is nothing to count,
# and exit status is 2.

set -eu
. "$(dirname "$0")/common.sh"

takes='--archive --stand-in'
read_options "$@"
no_words
need_compiler
need valgrind "to count calls"
need nm "to look for the permutation in the archive (Debian: binutils)"
permutation=permutation::keccak_f
[ "$stand_in" = no ] || permutation=permute
pairs=0
find_archive smallwood_c
nm "$archive" | grep -q " [tT] $permutation\$" ||
    fail "$archive has no function $permutation whose calls can be counted"

object keccak.o plain/keccak.c
object plain.o plain/plain.c
# shellcheck disable=SC2086
"$CC" $CFLAGS "$tools/permutations.c" "$tools/instance.c" "$build/plain.o" "$build/keccak.o" "$archive" \
    -o "$build/permutations"

# Verdicts after hashing, and before it.
hashing="0 8 9 10"
early="7 3 2"

# run_row EXPECTED VERDICTS...: the cells of question $number
run_row() {
    expected=$1
    shift
    for verdict; do
        run=$(count_calls smallwood_check "$permutation" "$build/permutations" once "$number" "$verdict")
        printf '| %s ' "$run"
        checks=$((checks + 1))
        [ "$run" = "$expected" ] || differences=$((differences + 1))
    done
}

checks=0
differences=0
printf '| h | mu | nu | w | l | eta | m | beta | leaves | given '
for verdict in $hashing $early; do printf '| run, %s ' "$verdict"; done
printf '|\n|---|---|---|---|---|---|---|---|---|---'
for verdict in $hashing $early; do printf '|---'; done
echo '|'
for number in $("$build/permutations" rows); do
    given=$("$build/permutations" given "$number")
    "$build/permutations" row "$number"
    printf '| %s ' "$given"
    # shellcheck disable=SC2086
    run_row "$given" $hashing
    # shellcheck disable=SC2086
    run_row 0 $early
    echo '|'
done
echo
echo "permutations: $checks checks, $differences with another number than the entry gives, or than 0 before hashing"
[ "$differences" = 0 ]
