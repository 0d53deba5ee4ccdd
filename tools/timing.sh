#!/bin/sh
# What the time of a call depends on. Secrets are marked as undefined, and valgrind's memcheck reports every branch and
# every address that depends on them. Of a commit, an open and an interpolate it is to be one branch: whether all lent
# words are below q. So of a prove, where what enters its answers is not marked. Nothing that a commit or an open calls
# is to divide. Of smallwood_draw_elements it is to be whether a word is drawn again. Prints Markdown tables and a
# summary; exit status 1 where something is otherwise, or where a control is not reported.
#
#     tools/timing.sh
#
#     --archive FILE     looks at this archive and does not build the library
#     --stand-in         looks at the plain C implementation, to test these tools: its commit and its open have more
#                        branches on secrets; exit status 1 where they are not found
#
# Needs gcc, valgrind with its header <valgrind/memcheck.h>, objdump, and rt unless an archive is given.

set -eu
. "$(dirname "$0")/common.sh"

takes='--archive --stand-in'
read_options "$@"
no_words
need_compiler
need_archive
need valgrind "to see what depends on secrets"
need objdump "to look for divisions (Debian: binutils)"
echo '#include <valgrind/memcheck.h>' | "$CC" -E - > /dev/null 2>&1 ||
    fail "there is no <valgrind/memcheck.h>; it is needed to mark secrets (Debian: valgrind)"
find_archive smallwood_c

object keccak.o plain/keccak.c
object plain.o plain/plain.c
# shellcheck disable=SC2086
"$CC" $CFLAGS "$tools/marked.c" "$tools/instance.c" "$build/plain.o" "$build/keccak.o" "$archive" -o "$build/marked"

faulty= # names of what is not as it has to be

# run NAME WORDS...: runs the program under NAME, prints its rows, and leaves in $build/places.NAME where something was
# reported: `branch`, `address` or `other`, and the function.
run() {
    name=$1
    shift
    status=0
    valgrind --num-callers=1 --error-limit=no --log-file="$build/marked.log" \
        "$build/marked" "$@" > "$build/marked.rows" || status=$?
    [ "$status" -le 1 ] || fail "marked $* failed under valgrind: see $build/marked.log"
    [ "$status" = 0 ] || faulty="$faulty $name"
    cat "$build/marked.rows"
    rows=$((rows + $(wc -l < "$build/marked.rows")))
    awk '/ Conditional jump or move depends on / { kind = "branch" }
         / Use of uninitialised value / { kind = "address" }
         / at 0x/ { print (kind ? kind : "other"), $4; kind = "" }' "$build/marked.log" > "$build/places.$name"
}

# dividing FUNCTION: those of the functions that it reaches, itself too, which divide
dividing() {
    objdump -d --no-show-raw-insn "$build/marked" | awk -v first="$1" '
        function reach(name, called, count, i) {
            if (name in reached) return
            reached[name] = 1
            if (name in divides) print name
            count = split(calls[name], called, " ")
            for (i = 1; i <= count; i++) reach(called[i])
        }
        /^[0-9a-f]+ <.*>:$/ { own = substr($2, 2, length($2) - 3) }
        /\t(call|jmp) / && $NF ~ /^<[^+]*>$/ { calls[own] = calls[own] " " substr($NF, 2, length($NF) - 2) }
        /\t[fvi]*div/ { divides[own] = 1 }
        END { reach(first) }'
}

# count KIND NAME: the places of that kind
count() {
    grep -c "^$1 " "$build/places.$2" || :
}

# show_places NAME DIVIDING: a row of the second table
show_places() {
    printf '| %s ' "$1" "$(count branch "$1")" "$(count address "$1")" "$(count other "$1")" \
        "$(cut -d ' ' -f 2 "$build/places.$1" | LC_ALL=C sort -u | xargs)" "$2"
    echo '|'
}

head='| entry | h mu nu w l eta m beta | marked | number | reports | |
|---|---|---|---|---|---|'
entries='commit open prove interpolate'
controls=$("$build/marked" controls)

printf 'Secrets marked: reports of one call.\n\n%s\n' "$head"
rows=0
for entry in $entries draw; do run "$entry" "$entry"; done
calls=$rows
printf '\nControls, which have to be reported.\n\n%s\n' "$head"
for control in $controls; do run "$control-control" control "$control"; done

printf '\nThe places of these reports, and what divides.\n\n'
printf '| | branches | addresses | other | in | reaches, and it divides |\n|---|---|---|---|---|---|\n'
for entry in $entries; do
    divides=$(dividing "smallwood_$entry" | LC_ALL=C sort | xargs)
    show_places "$entry" "$divides"
    [ "$(cat "$build/places.$entry")" = "branch smallwood_$entry" ] || faulty="$faulty $entry"
    case $entry in
        commit | open) [ -z "$divides" ] || faulty="$faulty $entry" ;;
        interpolate) [ -n "$divides" ] || faulty="$faulty divisions-control" ;;
    esac
done
divides=$(dividing draw_marked | xargs)
show_places draw "$divides"
[ "$(LC_ALL=C sort -u "$build/places.draw")$divides" = "branch draw_marked" ] || faulty="$faulty draw"
for control in $controls; do show_places "$control-control" ""; done
for kind in branch address; do
    [ "$(count "$kind" question-control)" -gt 0 ] || faulty="$faulty question-control"
done
for control in points prove plain; do
    [ "$(wc -l < "$build/places.$control-control")" -gt 1 ] || faulty="$faulty $control-control"
done
[ "$(cat "$build/places.branch-control")" = "branch branch_on" ] || faulty="$faulty branch-control"
[ "$(cat "$build/places.address-control")" = "address look_up" ] || faulty="$faulty address-control"

echo
if [ "$stand_in" = yes ]; then
    echo "Of the stand-in, commit and open have to be found so, and nothing else."
    wanted='commit open'
else
    wanted=
fi
faulty=$(echo "$faulty" | xargs -n 1 | LC_ALL=C sort -u | xargs)
echo "timing: $rows calls, $((rows - calls)) of them controls; not as it has to be: ${faulty:-none}"
[ "$faulty" = "$wanted" ]
