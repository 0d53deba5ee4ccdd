#!/bin/sh
# Compares the compiled library, the checking program and the program `counts` with the second implementation.
#
#     tools/conformance.sh                  every stored case and some drawn inputs
#     tools/conformance.sh --faults         tests the comparison itself on broken copies of plain/; no other option
#
#     --long N           N drawn inputs (100000 and more), and the checking program on every case
#     --seed S           other drawn inputs: S is a whole number from 1 on
#     --archive FILE     compares this archive and does not build the library
#     --program FILE     compares this checking program and does not build it
#     --counts FILE      the same for the program `counts`, which prints verdict and permutations of a check
#     --without-program  compares the archive alone
#     --stand-in         compares the plain C implementation, to test these tools: without and with PLAIN_PAIRS. It
#                        has no program `counts`
#
# Needs gcc and python3, and rt unless archive and both programs are given.

set -eu
. "$(dirname "$0")/common.sh"

takes='--archive --program --counts --without-program --stand-in --long --seed --faults'
read_options "$@"
no_words
[ "$faults" = no ] || [ $# -eq 1 ] || fail "--faults takes no other option"
[ "$without_program" = no ] || [ -z "$given_program$given_counts" ] ||
    fail "--without-program leaves no use for --program and --counts"
need_compiler
need_python
if [ "$faults" = yes ]; then
    exec python3 "$tools/conformance_faults.py" "$build/faults" --cc "$CC"
fi

# need_program NAME GIVEN OPTION: tests for what find_program takes.
need_program() {
    [ -n "$2" ] || need rt "to prove and build the program $1 (or give $3 FILE)"
}

# find_program NAME GIVEN: sets program: the one given, or the crate's, which rt proves and builds.
find_program() {
    program=$2
    [ -n "$program" ] || find_crate_program "$1"
}

compare() {
    find_archive smallwood_c
    # shellcheck disable=SC2086
    "$CC" $CFLAGS "$tools/conformance.c" "$archive" -o "$build/conformance"
    set --
    if [ "$without_program" = no ]; then
        if [ "$stand_in" = yes ] && [ -z "$given_program" ]; then
            program=$build/stand-in/program
            # shellcheck disable=SC2086
            "$CC" $CFLAGS -DPLAIN_PREFIX=smallwood "$tools/plain/program.c" "$archive" -o "$program"
        else
            find_program verdict "$given_program"
        fi
        set -- --program "$program"
        if [ "$stand_in" = no ] || [ -n "$given_counts" ]; then
            find_program counts "$given_counts"
            set -- "$@" --counts "$program"
        fi
    fi
    [ -z "$given_long" ] || set -- "$@" --long "$given_long"
    [ -z "$given_seed" ] || set -- "$@" --seed "$given_seed"
    python3 "$tools/conformance.py" "$build/conformance" "$@"
}

need_archive
if [ "$without_program" = no ] && [ "$stand_in" = no ]; then
    need_program verdict "$given_program" --program
    need_program counts "$given_counts" --counts
fi
if [ "$stand_in" = yes ]; then
    pairs=0
    compare
    pairs=1
fi
compare
