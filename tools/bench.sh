#!/bin/sh
# Cost of the library beside the plain C implementation; prints Markdown tables.
#
#     tools/bench.sh                   times, proofs, interpolation, growth, stack, products where python3 is installed,
#                                      and instructions where valgrind is
#     tools/bench.sh times             one of: times, proofs, interpolation, growth, stack, products, instructions;
#                                      interpolation has its instructions, too
#
#     --archive FILE     measures this archive and does not build the library
#     --before FILE      measures this older archive too, in the same runs: the tables have it as `before`. Its
#                        questions may have version 2, without a salt: it then hashes shorter strings, and has no cells
#                        for proving under kappa 8 and 16, where it would try other counters. It may lack the entries
#                        for permutations and interpolation. Archives of version 1 are not taken
#     --stand-in         measures the plain C implementation, to test these tools
#
# Needs gcc, rt unless an archive is given, and binutils for --before. With OpenSSL's headers (libssl-dev) the plain
# implementation is measured with OpenSSL's hash too; with valgrind instructions are counted.

set -eu
. "$(dirname "$0")/common.sh"

takes='--archive --before --stand-in'
read_options "$@"
one_word
[ "$word_count" -eq 1 ] || word=all
case $word in
    all | times | proofs | interpolation | growth | stack | products | instructions) ;;
    *) fail "no such table: $word (--help names them)" ;;
esac
need_compiler
[ "$word" != instructions ] || need valgrind "to count instructions"
[ "$word" != products ] || need python3 "for the sizes of the products (tools/sizes.py)"
need_before
find_archive smallwood_c
find_before smallwood

object keccak.o plain/keccak.c
object plain-keccak.o plain/plain.c -DPLAIN_PREFIX=plain_keccak
object plain-pairs.o plain/plain.c -DPLAIN_PREFIX=plain_pairs -DPLAIN_PAIRS=1
object converse.o plain/converse.c
objects="$build/converse.o $build/keccak.o $build/plain-keccak.o $build/plain-pairs.o"
with=$before
if has_openssl EVP_shake256; then
    object plain.o plain/plain.c -DPLAIN_OPENSSL
    object evp.o plain/evp.c
    objects="$objects $build/plain.o $build/evp.o"
    with="$before -DPLAIN_OPENSSL -lcrypto"
else
    echo "OpenSSL's headers (libssl-dev) are not installed: only plain/keccak.c is measured beside the library"
fi
# With all symbols bound at the start, no count includes the linker's work.
# shellcheck disable=SC2086
"$CC" $CFLAGS "$tools/bench.c" "$tools/instance.c" $objects "$archive" $with -Wl,-z,now -o "$build/bench"

# cells HAS COUNT: what COUNT says of each of $names, and the ratios of the library to the others; empty where HAS fails.
cells() {
    ratios=
    for name in $names; do
        if ! "$1" "$name"; then
            printf '| '
            ratios="$ratios| "
            continue
        fi
        found=$("$2" "$name")
        printf '| %s ' "$found"
        if [ "$name" = smallwood ]; then
            library=$found
        else
            ratios="$ratios| $(awk "BEGIN { printf \"%.2f\", $library / $found }") "
        fi
    done
    echo "$ratios|"
}

# Instructions inside a call of $operation at $size.
has_call() {
    "$build/bench" has "$operation" "$1"
}

count_call() {
    entry=$operation
    [ "$entry" != length ] || entry=reply_length
    count_inside "$1_$entry" "$build/bench" once "$operation" "$size" "$1"
}

# Instructions inside an interpolation over $count points.
has_interpolation() {
    "$build/bench" has-any "$1"
}

count_interpolation() {
    count_inside "$1_interpolate" "$build/bench" once-any "$count" "$1"
}

instructions() {
    names=$("$build/bench" names)
    printf '\nInstructions of one call (callgrind), and the ratio of the library to each of the others.\n\n'
    printf '| h | mu | nu | w | l | eta | m | beta | operation | permutations '
    for name in $names; do printf '| %s ' "$name"; done
    for name in $names; do [ "$name" = smallwood ] || printf '| to %s ' "$name"; done
    printf '|\n|---|---|---|---|---|---|---|---|---|---|'
    for name in $names; do printf -- '---|'; done
    for name in $names; do [ "$name" = smallwood ] || printf -- '---|'; done
    echo
    for size in $("$build/bench" sizes); do
        for operation in commit open check length permutations prove check_proof; do
            "$build/bench" row "$operation" "$size"
            cells has_call count_call
        done
    done
}

# One column of plain C: all prefixes have the same code.
instructions_of_interpolation() {
    names=$("$build/bench" names | grep -v -e '^plain$' -e '^plain_pairs$')
    printf '\nInstructions of one interpolation over any points (callgrind), and the ratio of the library to the '
    printf 'others.\n\n| points '
    for name in $names; do printf '| %s ' "$name"; done
    for name in $names; do [ "$name" = smallwood ] || printf '| to %s ' "$name"; done
    printf '|\n|---|'
    for name in $names; do printf -- '---|'; [ "$name" = smallwood ] || printf -- '---|'; done
    echo
    for count in 1 2 8 32 128 160 320; do
        printf '| %s ' "$count"
        cells has_interpolation count_interpolation
    done
}

# The sizes that a planner chooses between, for each worked product.
products() {
    choices=$(python3 "$tools/sizes.py" --choices)
    # shellcheck disable=SC2086
    "$build/bench" products $choices
}

set -- "$word"
case ${1:-all} in
    all)
        "$build/bench"
        if command -v python3 > /dev/null 2>&1; then
            products
        else
            echo "python3 is not installed: products are not measured"
        fi
        if command -v valgrind > /dev/null 2>&1; then
            instructions
            instructions_of_interpolation
        else
            echo "valgrind is not installed: instructions are not counted"
        fi
        ;;
    times | proofs | growth | stack) exec "$build/bench" "$1" ;;
    products) products ;;
    interpolation)
        "$build/bench" interpolation
        if command -v valgrind > /dev/null 2>&1; then
            instructions_of_interpolation
        else
            echo "valgrind is not installed: instructions are not counted"
        fi
        ;;
    instructions)
        instructions
        instructions_of_interpolation
        ;;
    *) fail "no such table: $1" ;;
esac
