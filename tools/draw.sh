#!/bin/sh
# Tests include/smallwood_draw.h, as C and as C++: that what it draws has no bias, counted over all sources of random
# bytes up to a length; that it stops where its source fails or repeats itself; that its headers are those of the
# handbook, and its questions taken by the library; that a badge is told of every question that it must not answer. Then
# copies of the header with one fault each, which have to be found. A summary; exit status 1 after a difference.
#
#     tools/draw.sh
#
#     --archive FILE     tests beside this archive and does not build the library
#     --stand-in         tests beside the plain C implementation
#
# Needs gcc, and rt unless an archive is given. Where they are installed, g++, clang and clang++ compile it too.

set -eu
. "$(dirname "$0")/common.sh"

takes='--archive --stand-in'
read_options "$@"
no_words
need_compiler
need_archive
find_archive smallwood_c
warnings='-Wall -Wextra -Wpedantic -Werror'
sizes=300

# compile INCLUDE COMPILER [WORDS...]: the test, with the header that is found there
compile() {
    include=$1
    shift
    # shellcheck disable=SC2086
    "$@" $warnings -I"$include" -I"$root/include" -I"$tools" "$tools/draw.c" -x none "$archive" -o "$build/draw"
}

# run_with COMPILER [WORDS...]: the test, where that compiler is installed
run_with() {
    command -v "$1" > /dev/null 2>&1 || { echo "draw: $1 is not installed: left out"; return 0; }
    compile "$root/include" "$@"
    "$build/draw" "$sizes" > "$build/draw.log" || { cat "$build/draw.log" >&2; exit 1; }
    echo "$*: $(cat "$build/draw.log")"
}

# damage CHANGE COMPILER [WORDS...]: the header with that change has to be found, by the test or by a sanitizer
damage() {
    change=$1
    shift
    sed "$change" "$root/include/smallwood_draw.h" > "$build/damaged/smallwood_draw.h"
    ! cmp -s "$root/include/smallwood_draw.h" "$build/damaged/smallwood_draw.h" ||
        fail "no such text in the header: $change"
    compile "$build/damaged" "$@"
    status=0
    "$build/draw" 50 > "$build/draw.log" 2>&1 || status=$?
    [ "$status" != 0 ] && grep -q 'DIFFERENT\|Sanitizer' "$build/draw.log" ||
        fail "the header with $change is not found"
    damages=$((damages + 1))
}

run_with "$CC" -std=c99 -O2
run_with "$CC" -std=c17 -O0
run_with clang -std=c11 -O2
run_with g++ -x c++ -std=c++11 -O2
run_with clang++ -x c++ -std=c++17 -O2

mkdir -p "$build/damaged"
damages=0
while read -r change; do
    damage "$change" "$CC" -std=c11 -O0
done << 'CHANGES'
s/elements\[i\] >= SMALLWOOD_Q/elements[i] > SMALLWOOD_Q/
s/elements\[i\] >= SMALLWOOD_Q/elements[i] >= SMALLWOOD_Q - 1/
s/elements\[i\] >= SMALLWOOD_Q/elements[i] > SMALLWOOD_Q + 2/
s/points\[p\] == 0 || //
s/ || smallwood_is_among(points, p, points\[p\])//
s/((1u << h) - 1)/((2u << h) - 1)/
s/& ((1u << h) - 1)/% ((1u << h) - 1)/
s/& ((1u << h) - 1)/* (1u << h) >> 16 | 1/
s/ + drawn\[1\] \* 256u//
s/!smallwood_is_among(indices, count, index)/1/
s/ && indices\[count - 1\] > index;/;/
s/l < 1 || l > 64 ||/l < 1 ||/
s/ || l > SMALLWOOD_LEAVES(h) ?/ ?/
s/tries < SMALLWOOD_MOST_TRIES ?/tries < UINT32_MAX ?/
s/tries++ < SMALLWOOD_MOST_TRIES ? smallwood/tries++ < UINT32_MAX ? smallwood/
s/tries++ < SMALLWOOD_MOST_TRIES ? source/tries++ < UINT32_MAX ? source/
/int smallwood_draw_elements(/,/^}/s/return failed;/return 0;/
/int smallwood_draw_points(/,/^}/s/return failed;/return 0;/
/int smallwood_draw_indices(/,/^}/s/return failed;/return 0;/
s/elements\[i \/ 4\] >> 8 \* (i % 4)/elements[i \/ 4] >> 8 * (3 - i % 4)/
s/indices\[i \/ 2\] >> 8 \* (i % 2)/indices[i \/ 2] >> 8 * (1 - i % 2)/
s/from\[2\] \* 65536u/from[2] * 65535u/
s/h, mu, nu, nu >> 8, w, w >> 8, l/h, mu, w, w >> 8, nu, nu >> 8, l/
s/l, eta, m, beta,$/l, eta, beta, m,/
s/nu, nu >> 8, w/nu, 0, w/
s/m >= 1 && m <= beta/m >= 1/
s/m >= 1 && m <= beta/m <= beta/
s/m >= 1 && m <= beta/m >= 1 \&\& m <= beta + 1/
s/same &= header\[i\] == own\[i\]/same \&= i == 14 || header[i] == own[i]/
s/same &= header\[i\] == own\[i\]/same \&= i < 3 || header[i] == own[i]/
s/smallwood_element_at(points + 4 \* p) != 0 && //
s/(points + 4 \* p) < SMALLWOOD_Q)/(points + 4 * p) <= SMALLWOOD_Q)/
s/    while (p < m \&\& /    while (p + 1 < m \&\& /;s/return p == m;/return p + 1 >= m;/
s/question_length == SMALLWOOD_QUESTION_LENGTH/question_length >= SMALLWOOD_QUESTION_LENGTH/
s/question_length == SMALLWOOD_PROOF_QUESTION_LENGTH/question_length >= SMALLWOOD_PROOF_QUESTION_LENGTH/
s/question + SMALLWOOD_POINTS_AT(eta)/question + SMALLWOOD_CHALLENGES_AT/
s/question + SMALLWOOD_PROOF_POINTS_AT/question + SMALLWOOD_POINTS_AT(eta)/
CHANGES

sanitizers='-fsanitize=address,undefined -fno-sanitize-recover=all'
echo 'int main(void) { return 0; }' > "$build/nothing.c"
# shellcheck disable=SC2086
if "$CC" $sanitizers "$build/nothing.c" -o "$build/nothing" > /dev/null 2>&1 && "$build/nothing"; then
    run_with "$CC" -std=c11 -O1 $sanitizers
    damage 's/question_length >= SMALLWOOD_HEADER_LENGTH && //' "$CC" -std=c11 -O1 $sanitizers
else
    echo "draw: $CC has no sanitizers: left out"
fi
echo "draw: $damages faults of the header, all found"
