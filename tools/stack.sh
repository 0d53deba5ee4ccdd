#!/bin/sh
# The stack below a call: that no entry takes more than include/smallwood.h says; which secrets stay there in plain, and
# which can be computed from it; that include/smallwood_wipe.h leaves nothing of them, compiled in several ways; that a
# call on a stack too small dies at its guard page. Prints Markdown tables and a summary; exit status 1 where something
# is otherwise, or where a control shows that a test would not see it.
#
#     tools/stack.sh
#
#     --archive FILE     looks at this archive and does not build the library
#     --stand-in         looks at the plain C implementation, to test these tools: it takes more stack than the header
#                        says, and more than is wiped; exit status 1 where that is not found
#
# Needs gcc, and rt unless an archive is given. With clang the remedy is compiled by it, too.

set -eu
. "$(dirname "$0")/common.sh"

takes='--archive --stand-in'
read_options "$@"
no_words
need_compiler
need gcc "to compile the remedy"

# bound ENTRY: what the header says that the entry takes
bound() {
    sed -n '/^ \*   Stack /,/^ \*   Order /p' "$root/include/smallwood.h" | tr '\n' ' ' |
        sed -n "s/.* $1 \([0-9][0-9,]*\).*/\1/p" | tr -d ,
}

entries='commit open prove interpolate check check_proof reply_length permutations'
for entry in $entries; do
    [ -n "$(bound "$entry")" ] || fail "include/smallwood.h does not say what stack $entry takes"
done

find_archive smallwood_c
object keccak.o plain/keccak.c
object plain.o plain/plain.c

warnings='-Wall -Wextra -Wpedantic -Werror'

# compile PROGRAM COMPILER [WORDS...]: from the source of that name; no call takes stack for lazy binding
compile() {
    out=$1
    shift
    # shellcheck disable=SC2086
    "$@" -std=c11 $warnings "$tools/$out.c" "$tools/instance.c" "$build/plain.o" "$build/keccak.o" "$archive" \
        -Wl,-z,now -o "$build/$out"
}

faulty=
tests=0

# expect STATUS NAME COMMAND [WORDS...]: 0, or 1 where the command has to find something
expect() {
    wanted=$1
    name=$2
    shift 2
    status=0
    "$@" > "$build/stack.rows" || status=$?
    [ "$status" -le 1 ] || fail "$* failed"
    sed "s/^/$prefix/" "$build/stack.rows"
    tests=$((tests + 1))
    [ "$status" = "$wanted" ] || faulty="$faulty $name"
}
prefix=

# table TITLE HEAD: the head of a table
table() {
    printf '\n%s\n\n%s\n%s\n' "$1" "$2" "$(echo "$2" | sed 's/[^|][^|]*/---/g')"
}

# installed COMPILER
installed() {
    command -v "$1" > /dev/null 2>&1
}

# makes COMPILER [WORDS...]: whether a program without anything can be made so
makes() {
    "$@" "$build/nothing.c" -o "$build/nothing" > /dev/null 2>&1
}
echo 'int main(void) { return 0; }' > "$build/nothing.c"

compile stack "$CC" -O2
compile stack_equations "$CC" -O2

table "Bytes of stack that a call takes." "| entry | at most | the header says | |"
for entry in $entries; do expect 0 depth "$build/stack" depth "$entry" "$(bound "$entry")"; done

table "Secrets that stay there in plain, where they are not shown." "| entry | h mu nu w l eta m beta | bytes | found |"
expect 0 remains "$build/stack" remains

equations='| entry | h mu nu w l eta m beta | secrets | shown | beside | computed |'
table "Equations on secrets that stay there, beside those that are shown, and what can be computed from both." \
    "$equations"
expect 0 equations "$build/stack_equations"

table "Where such equations stay after the remedy." "$equations"
expect 0 wiped-equations "$build/stack_equations" wiped

table "What the remedy leaves." "| compiled by | after | sizes | bytes left | of its own frame | secrets there |"
for compiler in gcc clang; do
    installed "$compiler" || echo "| $compiler | is not installed | | | | |"
    for options in -O0 -Os -O2 -O3 "-O2 -flto"; do
        # shellcheck disable=SC2086
        if installed "$compiler" && makes "$compiler" $options; then
            compile stack "$compiler" $options
            prefix="| $compiler $options "
            expect 0 wiped "$build/stack" wiped
        fi
    done
done
compile stack gcc -O2 -DSMALLWOOD_WIPED_STACK=4096
prefix='| control: 4,096 bytes '
expect 1 short-remedy-control "$build/stack" wiped
prefix='| control: no remedy '
expect 1 no-remedy-control "$build/stack" unwiped
prefix=

compile stack "$CC" -O2
table "On stacks from nothing to more than the call takes, over a page that cannot be touched: how many calls." \
    "| entry | takes | died at that page | worked | died elsewhere | got past it |"
expect 0 guard "$build/stack" guard

table "smallwood_wipe.h alone, and used." "| compiled by | |"
echo '#include "smallwood_wipe.h"' > "$build/wipe_alone.c"
cat "$build/wipe_alone.c" - > "$build/wipe_used.c" << END
void forget(void *memory, size_t size);

void forget(void *memory, size_t size)
{
    smallwood_wipe(memory, size);
    smallwood_wipe_stack();
}
END
echo 'static void unused(void) {}' > "$build/wipe_control.c"

# try_header STATUS COMPILER STANDARD FILE: with that standard, of C or of C++
try_header() {
    case $3 in
        c++*) language=c++ ;;
        *) language=c ;;
    esac
    makes "$2" -x "$language" || return 0
    # shellcheck disable=SC2086
    expect "$1" "header" "$2" -x "$language" "-std=$3" -O2 $warnings -Wunused-function "-I$root/include" \
        -c "$build/$4.c" -o "$build/wipe.o" 2> "$build/wipe.log"
    echo "| $2 $3, $4 | $([ "$status" = "$1" ] || cat "$build/wipe.log") |"
}

for compiler in gcc clang; do
    installed "$compiler" || continue
    for standard in c99 c17 c++11 c++17; do
        try_header 0 "$compiler" "$standard" wipe_alone
        try_header 0 "$compiler" "$standard" wipe_used
    done
    try_header 1 "$compiler" c99 wipe_control
done

echo
faulty=$(echo "$faulty" | xargs -n 1 | LC_ALL=C sort -u | xargs)
missed=
if [ "$stand_in" = yes ]; then
    echo "Of the stand-in, depth, wiped and wiped-equations have to be found so."
    for name in depth wiped wiped-equations; do
        case " $faulty " in
            *" $name "*) ;;
            *) missed="$missed $name" ;;
        esac
    done
fi
echo "stack: $tests tests; not as it has to be: ${faulty:-none}"
[ "$stand_in" = yes ] || [ -z "$faulty" ]
[ -z "$missed" ]
