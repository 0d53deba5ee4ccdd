#!/bin/sh
# Builds the examples for C with warnings as errors and runs them: badge and reader, forgers, wrong readers, a proof
# without a conversation and one who forges it, interpolation. Then the lines that stand in their comments are run as
# they stand there, in a folder laid out as a release. Exit status 1 at the first result that is not as it should be.
#
#     tools/example.sh
#
#     --archive FILE     uses this archive and does not build the library
#     --stand-in         uses the plain C implementation, to test examples and script
#
# Needs gcc, python3, timeout and mkfifo, and rt unless an archive is given. Takes about 30 seconds: two times the
# examples' time limit, which silent sides are let run into.

set -eu
. "$(dirname "$0")/common.sh"

takes='--archive --stand-in'
read_options "$@"
no_words
need_compiler
need_python
need timeout "to end programs that hang (Debian: coreutils)"
need mkfifo "for the line between badge and reader (Debian: coreutils)"
find_archive smallwood_c

limit=60 # seconds; the programs have a shorter time of their own
flags='-std=c11 -O2 -Wall -Wextra -Wpedantic -Werror'
programs=$build/examples
mkdir -p "$programs"
examples='first badge reader forger offline_door proof_forger revocation'

# compile NAME SOURCE [WORDS...]
compile() {
    program=$1
    shift
    # shellcheck disable=SC2086
    "$CC" $flags -I"$root/include" -I"$root/examples" -o "$programs/$program" "$@" "$archive"
}

for example in $examples; do
    compile "$example" "$root/examples/$example.c"
done

scratch=$(mktemp -d)
trap 'rm -rf "$scratch"' EXIT
trap 'exit 1' HUP INT TERM
mkfifo "$scratch/to-badge" "$scratch/to-reader"

wrong() {
    echo "example.sh: $1" >&2
    for log in other reader; do
        [ ! -f "$scratch/$log.log" ] || sed "s/^/$log.log: /" "$scratch/$log.log" >&2
    done
    exit 1
}

# section TITLE: what the conversations before it left is not shown any more
section() {
    rm -f "$scratch/other.log" "$scratch/reader.log"
    echo "== $1"
}

# converse PROGRAM [WORDS...]: the reader, with that program on the badge's side. Sets reader_status and other_status,
# and leaves reader.log and other.log. No process but the two has the line open, or neither would see the other's end.
converse() {
    timeout "$limit" sh -c 'exec "$@" < "$0/to-badge" > "$0/to-reader" 2> "$0/other.log"' "$scratch" "$@" &
    other=$!
    reader_status=0
    timeout "$limit" sh -c 'exec "$1" > "$0/to-badge" < "$0/to-reader" 2> "$0/reader.log"' \
        "$scratch" "$programs/reader" || reader_status=$?
    other_status=0
    wait "$other" || other_status=$?
    last=$(tail -n 1 "$scratch/reader.log")
}

accepted() {
    [ "$other_status" = 0 ] || wrong "$1: the badge's side ends with $other_status, not with 0"
    [ "$reader_status" = 0 ] || wrong "$1: the reader ends with $reader_status, not with 0"
}

# refused CHEAT ALONE BEGINNING: after a forger's conversation; what the check alone says of its reply (nothing, where
# there is none), and how the reader's last line begins.
refused() {
    [ "$other_status" = 0 ] || wrong "$1: the forger ends with $other_status, not with 0"
    [ "$reader_status" = 1 ] || wrong "$1: the reader ends with $reader_status, not with 1"
    case $(cat "$scratch/other.log") in
        "$2"*) ;;
        *) wrong "$1: the check alone says something else than '$2'" ;;
    esac
    case $last in
        "$3"*) ;;
        *) wrong "$1: the reader's last line does not begin with '$3'" ;;
    esac
    ! grep -q '^polynomial' "$scratch/reader.log" || wrong "$1: the reader prints values"
    echo "ok: $1: $last"
}

# ends_with STATUS PROGRAM [WORDS...]
ends_with() {
    expected=$1
    shift
    status=0
    "$@" < /dev/null > "$scratch/printed" 2>&1 || status=$?
    [ "$status" = "$expected" ] || wrong "$*: ends with $status, not with $expected"
}

section "examples/badge.c and examples/reader.c"
python3 "$tools/example.py" polynomials "$scratch/polynomials"
for run in 1 2 3; do
    converse "$programs/badge" "$scratch/polynomials"
    accepted "conversation $run"
    python3 "$tools/example.py" values "$scratch/polynomials" "$scratch/reader.log"
done
cat "$scratch/reader.log"
ends_with 2 "$programs/badge"
ends_with 2 "$programs/badge" one two
ends_with 1 "$programs/reader"
python3 "$tools/example.py" readers "$programs/badge" "$scratch/polynomials"

section "examples/forger.c and examples/reader.c"
alone='forger: the check alone gives'
other_answers='the answers are not those that came before the leaves were drawn'
converse "$programs/forger" none
accepted "a forger that does not cheat"
python3 "$tools/example.py" honest "$scratch/other.log"
converse "$programs/forger" knows
refused knows "$alone 0:" "reader: refused: $other_answers"
python3 "$tools/example.py" forged "$scratch/other.log"
tried=
for pair in guesses:10 column:10 batching:9 element:3 leaf:8 node:8 cut:7 longer:7 salt:8 polynomial:9; do
    cheat=${pair%:*}
    number=${pair#*:}
    tried="$tried $cheat"
    converse "$programs/forger" "$cheat"
    refused "$cheat" "$alone $number, and no value" "reader: refused with $number:"
done
converse "$programs/forger" early
refused early "$alone 0:" 'reader: refused with 7:'
converse "$programs/forger" gone
refused gone '' 'reader: refused: the other side ended too soon'
converse "$programs/forger" silent
refused silent '' 'reader: refused: the other side took too long'
"$programs/forger" misuse
"$programs/forger" --help > "$scratch/help"
for words in '' unheard-of 'none none'; do
    # shellcheck disable=SC2086
    ends_with 2 "$programs/forger" $words
    cmp -s "$scratch/printed" "$scratch/help" || wrong "forger $words: does not list the cheats"
done
# shellcheck disable=SC2046
set -- $(sed -n 's/^    \([a-z]*\)  *[a-z].*/\1/p' "$scratch/help")
[ "$*" = "none knows$tried early gone silent" ] || wrong "forger --help: lists other cheats than were tried: $*"

for example in offline_door revocation; do
    section "examples/$example.c"
    "$programs/$example"
done

section "examples/digest.h"
cat > "$scratch/in_two.c" << 'SOURCE'
#include "digest.h"

void in_two(uint8_t *to, size_t count, const uint8_t *from, size_t length, size_t cut);

void in_two(uint8_t *to, size_t count, const uint8_t *from, size_t length, size_t cut)
{
    struct shake first = {{0}, 0}, whole;

    shake_take(&first, from, cut);
    whole = first;
    shake_take(&whole, from + cut, length - cut);
    shake_give(&whole, to, count);
}
SOURCE
compile in_two.so "$scratch/in_two.c" -shared -fPIC
python3 "$tools/example.py" digests "$programs/in_two.so"

section "examples/proof_forger.c"
for words in '0 any' '0 any' '0 any' '0 close' '4 any'; do
    # shellcheck disable=SC2086
    set -- $words "$scratch/question" "$scratch/one" "$scratch/two"
    timeout "$limit" "$programs/proof_forger" "$@" > "$scratch/forged" ||
        wrong "proof_forger $words: $(tail -n 1 "$scratch/forged")"
    cat "$scratch/forged"
    python3 "$tools/example.py" lists "$3" "$4" "$5" "$scratch/forged"
done
ends_with 2 "$programs/proof_forger" ''
for words in 9 -1 00 '4 far' '4 any one' '4 any one two' '4 any one two three four'; do
    # shellcheck disable=SC2086
    ends_with 2 "$programs/proof_forger" $words
done

# An open whose answers are others when the leaves are known: the check accepts them, so the comparison has to tell.
section "examples/first.c"
"$programs/first"
for late in 0 1; do
    compile late "$root/examples/first.c" "$tools/late_open.c" -DLATE_BATCHING="$late" -Wl,--wrap=smallwood_open
    ends_with 1 "$programs/late"
    [ "$(sort "$scratch/printed" | tr '\n' ';')" = "late_open: the check alone gives 0;$other_answers;" ] ||
        wrong "first.c takes answers that were made late: $(cat "$scratch/printed")"
done
echo "ok: first.c refuses answers that the check accepts, but that were made when the leaves were known"

# The lines in the examples' comments. A release has these folders; cc is the compiler that is used here.
release=$scratch/release
mkdir -p "$release/lib" "$scratch/bin"
cp -r "$root/include" "$root/examples" "$release/"
cp "$archive" "$release/lib/libsmallwood.a"
ln -s "$(command -v "$CC")" "$scratch/bin/cc"

# as_written EXAMPLE STATUS LAST: the commands in the program's first comment, all that is indented there by four, run
# in the folder and end with this status and this last line.
as_written() {
    sed -n -e '/\*\//q' -e 's/^ \*     //p' "$root/examples/$1.c" > "$scratch/lines"
    grep -q "^cc .* examples/$1\.c " "$scratch/lines" || wrong "$1.c: does not say how it is built"
    rm -f "$release/to-badge" "$release/to-reader"
    status=0
    (cd "$release" && PATH=$scratch/bin:$PATH timeout "$limit" sh -eu "$scratch/lines") \
        > "$scratch/reader.log" 2>&1 || status=$?
    [ "$status" = "$2" ] || wrong "$1.c: its lines end with $status, not with $2"
    # shellcheck disable=SC2254
    case $(tail -n 1 "$scratch/reader.log") in
        $3) ;;
        *) wrong "$1.c: its lines print something else at the end than '$3'" ;;
    esac
    echo "ok: the lines in $1.c, as they stand in a release's folder"
}

# in_time: the two lines that join badge and reader once more. Where a shell holds a pipe open, both wait until the time
# of a conversation is over, and nothing else tells.
in_time() {
    seconds=$(sed -n 's/^enum { SECONDS = \([0-9]*\) };$/\1/p' "$root/examples/conversation.h")
    tail -n 2 "$scratch/lines" > "$scratch/joined"
    began=$(date +%s)
    (cd "$release" && timeout "$limit" sh -eu "$scratch/joined") > "$scratch/reader.log" 2>&1 ||
        wrong "badge and reader, joined once more, fail"
    [ $(($(date +%s) - began)) -lt "$seconds" ] || wrong "badge and reader wait until their $seconds seconds are over"
}

section "lines in comments"
as_written badge 0 'reader: accepted'
python3 "$tools/example.py" values "$release/polynomials" "$scratch/reader.log"
in_time
as_written reader 0 'reader: accepted'
in_time
as_written forger 1 "reader: refused: $other_answers"
as_written first 0 "smallwood $(library_version): * the value at 10 is 987654321"
as_written offline_door 0 'ok: *'
as_written proof_forger 0 'a door that has R of list 2 opens to list 2'
as_written revocation 0 'ok: *'
