#!/bin/sh
# Tests the headers: that they are clean C and C++ and that a result which is dropped is a warning; of smallwood.h that
# it declares what tools/entries.h declares, that its lengths, offsets and names are those that the library takes, and
# that the archive has its functions and no other global name. What smallwood_draw.h does is tested by tools/draw.sh.
#
#     tools/header.sh
#
#     --archive FILE     tests this archive and does not build the library
#     --stand-in         tests the plain C implementation, to test these tools; its names are not looked at
#
# Needs gcc, g++, nm, objcopy and objdump, and rt unless an archive is given. Where they are installed, clang and clang++
# compile the header too.

set -eu
. "$(dirname "$0")/common.sh"

takes='--archive --stand-in'
read_options "$@"
no_words
need_compiler
need_archive
need g++ "to compile the header as C++"
for tool in nm objcopy objdump; do need "$tool" "to look at the archive (Debian: binutils)"; done
draws=20000
warnings='-Wall -Wextra -Wpedantic -Wconversion -Wsign-conversion -Wshadow -Wshift-count-overflow -Werror'
headers='smallwood.h smallwood_wipe.h smallwood_draw.h'
outside='0 13 64 70 -1 4294967295u' # depths that no tree has

# compiles COMPILER STANDARD INCLUDE FILE
compiles() {
    case $2 in
        c++*) casts=-Wold-style-cast ;;
        *) casts= ;;
    esac
    # shellcheck disable=SC2086
    "$1" -std="$2" $warnings $casts -I"$3" -I"$tools" -c "$4" -o "$build/header.o" > "$build/header.log" 2>&1
}

must_compile() {
    compiles "$@" && return 0
    cat "$build/header.log" >&2
    fail "$1 -std=$2 refuses $4"
}

# macros: each that the header gives to its users and that is a number, with its sizes, if it has any
macros() {
    sed -n 's/^#define \(SMALLWOOD_[A-Z_]*[A-Z]\)\((\([a-z, ]*\))\)\{0,1\} .*/\1 \3/p' "$root/include/smallwood.h" |
        grep -v -x -E 'SMALLWOOD_(Q|VERSION|SIZE|USE_RESULT) .*'
}

# results: each function whose result is to be looked at, whether it says so or not, and the number of its parameters
results() {
    awk '/^(uint32_t|SMALLWOOD_USE_RESULT int|static inline int) smallwood_[a-z_]*\(/ { text = ""; reading = 1 }
         reading { text = text $0 }
         reading && /\)/ {
             match(text, /smallwood_[a-z_]*\(/)
             name = substr(text, RSTART, RLENGTH - 1)
             print name, gsub(/,/, "", text) + 1
             reading = 0
         }' "$root/include/smallwood.h" "$root/include/smallwood_draw.h"
}

# call NAME COUNT: with zeros
call() {
    echo "$1($(seq -s , "$2" | sed 's/[0-9][0-9]*/0/g'))"
}

# arrays NAME [SIZES]: only a constant expression may stand for the size of an array outside a function, and where an
# array is declared twice the two have to be the same. So with an h that is out of range the number has to be 0, and
# with a nu of 0 that of the blinds.
arrays() {
    name=$1
    sizes=$(echo "${2:+($2)}" | tr '[:lower:]' '[:upper:]')
    echo "extern unsigned char array_${name}[1 + $name$sizes];"
    wrong=0
    case $sizes in
        *H*) set -- H "$outside" ;;
        *) set -- NU "$([ "$name" != SMALLWOOD_BLINDS_LENGTH ] || echo 0)" ;;
    esac
    for value in $2; do
        wrong=$((wrong + 1))
        out=$(echo "$sizes" | sed "s/\([(, ]\)$1\([,)]\)/\1$value\2/")
        echo "extern unsigned char outside_${name}_${wrong}[1 + $name$out], outside_${name}_${wrong}[1];"
    done
}

# One file for each header alone, and one with all, twice, with the declarations of tools/entries.h, every macro and
# every function whose result is to be looked at.
write_users() {
    for header in $headers; do
        printf '#include "%s"\nint main(void) { return 0; }\n' "$header" > "$build/alone_$header.c"
        cp "$build/alone_$header.c" "$build/alone_$header.cc"
    done
    {
        for header in $headers $headers; do echo "#include \"$header\""; done
        printf '#include "entries.h"\n#ifdef __cplusplus\nextern "C" { ENTRIES(smallwood); }\n#else\n'
        printf 'ENTRIES(smallwood);\n#endif\nenum { H = 3, MU = 2, NU = 2, W = 1, L = 2, ETA = 1, BETA = 1, M = 1 };\n'
        macros | while read -r name sizes; do arrays "$name" "$sizes"; done
        printf 'int main(void)\n{\n    smallwood_wipe_stack();\n    smallwood_wipe(NULL, 0);\n'
        printf '    smallwood_put_elements(NULL, NULL, 0);\n    smallwood_put_indices(NULL, NULL, 0);\n'
        printf '    smallwood_put_header(NULL, H, MU, NU, W, L, ETA, BETA, M);\n'
        results | while read -r name count; do
            echo "    if ($(call "$name" "$count") != 0) return SMALLWOOD_NOT_DRAWN;"
        done
        printf '    return smallwood_verdict_text(0)[0] == 0 || smallwood_element_at(NULL) < SMALLWOOD_Q;\n}\n'
    } > "$build/both.c"
    cp "$build/both.c" "$build/both.cc"
}

# compile_by SUFFIX STANDARDS COMPILERS...: every user of that suffix by each of the compilers that are installed
compile_by() {
    suffix=$1
    standards=$2
    shift 2
    for compiler; do
        command -v "$compiler" > /dev/null 2>&1 || { echo "header: $compiler is not installed: left out"; continue; }
        for standard in $standards; do
            for user in "$build"/alone_*."$suffix" "$build/both.$suffix"; do
                must_compile "$compiler" "$standard" "$root/include" "$user"
                compiled=$((compiled + 1))
            done
        done
    done
}

compile_all() {
    write_users
    numbers=$(grep -c '^extern unsigned char array_' "$build/both.c")
    wrong=$(grep -c '^extern unsigned char outside_' "$build/both.c")
    [ "$numbers" -gt 30 ] && [ "$wrong" -gt 36 ] || fail "the header's macros for lengths were not found"
    compiled=0
    compile_by c 'c99 c11 c17' "$CC" clang
    compile_by cc 'c++11 c++17' g++ clang++
    echo "header: compiled $compiled times, as C99, C11, C17, C++11 and C++17, without a warning, with $numbers macros" \
        "as sizes of arrays, and $wrong times 0 for sizes out of range"
}

# refuse_change CHANGE HEADER COMPILER STANDARD FILE WHY: a copy with the change must be refused, for that reason
refuse_change() {
    mkdir -p "$build/drift"
    cp "$root/include"/*.h "$build/drift/"
    sed "$1" "$root/include/$2" > "$build/drift/$2"
    cmp -s "$root/include/$2" "$build/drift/$2" && fail "no such text in $2: $1"
    compiles "$3" "$4" "$build/drift" "$5" && fail "$2 with $1 is compiled"
    grep -q "$6" "$build/header.log" || fail "$2 with $1 is refused for another reason"
}

# refuse_each PATTERN: every change on standard input, of a copy of smallwood.h; sets refused to their number
refuse_each() {
    refused=0
    while read -r change; do
        refuse_change "$change" smallwood.h "$CC" c11 "$build/both.c" "$1"
        refused=$((refused + 1))
    done
}

# Drift must be an error: each change of a declaration in a copy of the header must be refused beside tools/entries.h.
refuse_drift() {
    refuse_each 'conflicting types' << 'CHANGES'
s/const uint8_t \*salt/uint8_t *salt/
s/uint32_t \*table/uint64_t *table/
s/uint64_t \*count)/uint32_t *count)/
s/uint32_t kappa, uint32_t limit/uint32_t kappa, uint64_t limit/
s/^uint32_t smallwood_check(/int smallwood_check(/
s/uint32_t eta, uint32_t beta,/uint32_t eta,/
s/uint32_t \*coefficients, size_t coefficients_length)/uint32_t *coefficients)/
CHANGES
    echo "header: $refused changed declarations refused beside tools/entries.h"
}

# So must be a length that takes sizes out of range for what they are not, and a cast in the manner of C in C++.
refuse_faults() {
    refuse_each 'conflicting types\|shift count\|too large' << 'CHANGES'
s/(h) >= 1 && (h) <= 12/(h) >= 1 \&\& (h) <= 13/
s/(h) >= 1 && (h) <= 12/(h) <= 12/
s/(SMALLWOOD_HAS_DEPTH(h) << ((h) & 15))/(SMALLWOOD_SIZE(1) << (h))/
s/SMALLWOOD_HAS_DEPTH(h) \* SMALLWOOD_ROOT_LENGTH/SMALLWOOD_ROOT_LENGTH/
s/SMALLWOOD_HAS_DEPTH(h) \* SMALLWOOD_COUNTER_LENGTH/SMALLWOOD_COUNTER_LENGTH/
s/^    (SMALLWOOD_HAS_DEPTH(h)  /    (1  /
s/ - SMALLWOOD_SIZE((nu) > 0)/ - 1/
CHANGES
    refuse_change 's/(static_cast<size_t>(x))/((size_t)(x))/' smallwood.h g++ c++11 "$build/both.cc" old-style-cast
    refuse_change 's/static_cast<volatile uint8_t \*>(memory)/((volatile uint8_t *)memory)/' smallwood_wipe.h \
        g++ c++11 "$build/both.cc" old-style-cast
    echo "header: $refused lengths and 2 casts with a fault refused"
}

# refuse_dropped STANDARD SUFFIX COMPILER: each result that is dropped
refuse_dropped() {
    command -v "$3" > /dev/null 2>&1 || return 0
    results > "$build/results"
    [ "$(wc -l < "$build/results")" -ge 16 ] || fail "the functions were not found"
    while read -r name count; do
        printf '#include "smallwood_draw.h"\nint main(void)\n{\n    %s;\n    return 0;\n}\n' "$(call "$name" "$count")" \
            > "$build/dropped.$2"
        ! compiles "$3" "$1" "$root/include" "$build/dropped.$2" || fail "$3 takes a $name whose result is dropped"
        grep -q 'unused-result' "$build/header.log" || fail "$3 refuses $name for another reason"
        dropped=$((dropped + 1))
    done < "$build/results"
}

refuse_all_dropped() {
    dropped=0
    refuse_dropped c11 c "$CC"
    refuse_dropped c11 c clang
    refuse_dropped c++11 cc g++
    refuse_dropped c++11 cc clang++
    echo "header: $dropped dropped results refused, of $(wc -l < "$build/results") functions"
}

# try_lengths INCLUDE DRAWS [WORDS...]: the header found there against the archive, compiled with these words
try_lengths() {
    include=$1
    draw=$2
    shift 2
    # shellcheck disable=SC2086
    "$CC" -std=c11 $CFLAGS -Wpedantic "$@" -I"$include" "$tools/header.c" "$archive" -o "$build/header"
    "$build/header" "$draw"
}

# What C leaves undefined is found by gcc, where it has what that needs.
try_undefined() {
    echo 'int main(void) { return 0; }' > "$build/nothing.c"
    sanitizer='-fsanitize=undefined -fno-sanitize-recover=all'
    # shellcheck disable=SC2086
    if "$CC" $sanitizer "$build/nothing.c" -o "$build/nothing" > /dev/null 2>&1; then
        try_lengths "$root/include" 500 $sanitizer > "$build/header.log" 2>&1 ||
            { cat "$build/header.log" >&2; fail "$sanitizer finds something"; }
        echo "with $sanitizer: $(cat "$build/header.log")"
    else
        echo "header: $CC has no -fsanitize=undefined: left out"
    fi
}

# Each length, and each number that is a macro, must be found where it is one more than it should be.
refuse_lengths() {
    found=0
    macros > "$build/macros"
    while read -r name sizes; do
        sizes=${sizes:+($sizes)}
        sed "s/^#define $name\([( ]\)/#define RIGHT_$name\1/" "$root/include/smallwood.h" > "$build/drift/right.h"
        printf '#include "right.h"\n#define %s%s (1 + RIGHT_%s%s)\n' "$name" "$sizes" "$name" "$sizes" \
            > "$build/drift/smallwood.h"
        status=0
        try_lengths "$build/drift" 200 -O1 > "$build/header.log" 2>&1 || status=$?
        [ "$status" = 1 ] && grep -q DIFFERENT "$build/header.log" || fail "$name with one more is not found"
        found=$((found + 1))
    done < "$build/macros"
    echo "header: $found macros found out when they are one more"
}

# global_names ARCHIVE: what it gives and what it wants, each once
global_names() {
    nm -g "$1" | sed -n 's/^[0-9a-f ]* \([A-Z]\) \(..*\)$/\1 \2/p' | LC_ALL=C sort -u
}

compare_names() {
    {
        sed -n 's/^uint32_t \(smallwood_[a-z_]*\)(.*/T \1/p' "$root/include/smallwood.h"
        printf 'U memcpy\nU memset\n'
    } | LC_ALL=C sort > "$build/names.expected"
    global_names "$archive" > "$build/names"
    diff "$build/names.expected" "$build/names" > "$build/names.differ" ||
        { cat "$build/names.differ" >&2; fail "the archive's global names are not those of the header"; }
    # Without this section the linker would make the program's stack executable.
    stacks=$(objdump -h "$archive" | grep -c ' \.note\.GNU-stack ') || true
    [ "$stacks" = 1 ] || fail "the archive has no section .note.GNU-stack"
    # A name more must be seen.
    cp "$archive" "$build/names.a"
    objcopy --add-symbol one_more=0,global "$build/names.a"
    global_names "$build/names.a" | cmp -s - "$build/names.expected" && fail "a further global name is not seen"
    echo "header: $(grep -c '^T ' "$build/names") functions, memcpy and memset are all of the archive's global names"
}

compile_all
refuse_drift
refuse_faults
refuse_all_dropped
find_archive smallwood_c
[ "$stand_in" = yes ] || compare_names
refuse_lengths
try_undefined
try_lengths "$root/include" "$draws"
