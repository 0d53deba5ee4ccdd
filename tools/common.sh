# shellcheck shell=sh disable=SC2034
# Sourced by the scripts beside it, which use what is set here: reads their words, tests for what they need, and builds
# into target/tools/; what rt builds lies in crates/*/out/. A script tests all its words first, then for all its tools,
# and builds after that.

root=$(cd "$(dirname "$0")/.." && pwd)
tools=$root/tools
build=$root/target/tools
CC=${CC:-gcc}
CFLAGS=${CFLAGS:--O3 -march=x86-64 -Wall -Wextra -Werror}

fail() {
    echo "$(basename "$0"): $1" >&2
    exit 2
}

# need COMMAND WHAT-FOR
need() {
    command -v "$1" > /dev/null 2>&1 || fail "'$1' is not installed; it is needed $2"
}

need_compiler() {
    need "$CC" "to compile the C programs (or name another compiler in CC)"
    mkdir -p "$build"
}

need_python() {
    need python3 "to run the second implementation in reference/"
    python3 -c 'import sys; sys.exit(sys.version_info < (3, 9))' || fail "python3 must be 3.9 or later"
    export PYTHONDONTWRITEBYTECODE=1
}

# has_openssl FUNCTION: whether programs can be built with that function of OpenSSL.
has_openssl() {
    printf '#include <openssl/evp.h>\nint main(void) { return %s == 0; }\n' "$1" > "$build/openssl.c"
    "$CC" "$build/openssl.c" -lcrypto -o "$build/openssl" > /dev/null 2>&1
}

# object OUT SOURCE [WORDS...]
object() {
    out=$1
    source=$2
    shift 2
    # shellcheck disable=SC2086
    "$CC" $CFLAGS "$@" -c "$tools/$source" -o "$build/$out"
}

# library_version: as the header has it
library_version() {
    sed -n 's/^#define SMALLWOOD_VERSION "\([0-9.]*\)"$/\1/p' "$root/include/smallwood.h"
}

# sources: the files and folders that are proved and compiled. What a program is run on is none of them.
sources() {
    (cd "$root" && ls -d crates.txt crates/*/src crates/*/specs crates/*/proofs)
}

# sources_sum: one sum over all that is proved and compiled, by name and content, and the kit that does it. It fails
# where some of that cannot be read.
sources_sum() {
    (
        cd "$root" || exit 1
        rt version > "$build/sources" || exit 1
        # shellcheck disable=SC2046
        find $(sources) ! -type d -exec sha256sum {} + >> "$build/sources" || exit 1
        LC_ALL=C sort -o "$build/sources" "$build/sources" || exit 1
        sha256sum < "$build/sources" | cut -d ' ' -f 1
    )
}

# report_progress NAME LOG: the log's last line, each time that so many seconds have passed, until the script ends or
# this is killed. What sleeps then holds no output open.
progress_every=9

report_progress() {
    while sleep "$progress_every" > /dev/null 2>&1 && kill -0 $$ 2> /dev/null; do
        echo "$1: $(tail -n 1 "$2" | cut -c 1-100)" >&2
    done
}

# run_logged LOG CRATE COMMAND [WORDS...]: runs the command in the crate's folder, with the crate's file stdin where it
# has one; what it prints goes to the log.
run_logged() (
    log=$1
    cd "$root/crates/$2" || exit 1
    shift 2
    input=/dev/null
    [ ! -f stdin ] || input=stdin
    : > "$log"
    report_progress "${PWD##*/}" "$log" &
    status=0
    "$@" < "$input" > "$log" 2>&1 || status=$?
    kill $! 2> /dev/null || :
    wait 2> /dev/null || :
    exit "$status"
)

# built CRATE FILE COMMAND [WORDS...]: runs the command in the crate's folder, which is to prove the crate and write FILE
# there, unless it did so before, from the same sources, and the file is the one that it left then. Where a source has
# changed while the command ran, nobody can tell what the file was made from: it is not taken for built the next time.
built() {
    crate=$1
    file=$root/crates/$1/$2
    shift 2
    mkdir -p "$build"
    sum=$(sources_sum 2> /dev/null) || sum=
    if [ -n "$sum" ] && [ -f "$file" ] && [ "$(stamp_of "$file")" = "$sum $(sha256sum < "$file")" ]; then
        return 0
    fi
    rm -f "$build/$(basename "$file").stamp"
    : > "$build/begun"
    echo "proves and builds crate $crate (from nothing: as long as most of rt ci)" >&2
    if ! run_logged "$build/rt.log" "$crate" "$@"; then
        tail -n 20 "$build/rt.log" >&2
        fail "crate $crate was not built"
    fi
    [ -f "$file" ] || fail "crate $crate was built, and there is no $file"
    if [ -n "$sum" ] && [ "$(sources_sum)" = "$sum" ] && ! changed_since "$build/begun"; then
        stamp "$file" "$sum"
    else
        echo "sources changed while $crate was built, or cannot all be read; it will be built again the next time" >&2
    fi
}

# stamp FILE SUM: notes that the file was made from the sources of that sum; stamp_of FILE: what was noted
stamp() {
    echo "$2 $(sha256sum < "$1")" > "$build/$(basename "$1").stamp"
}

stamp_of() {
    cat "$build/$(basename "$1").stamp" 2> /dev/null
}

# changed_since FILE: whether a source or a folder of sources has been written since that file was.
changed_since() {
    # shellcheck disable=SC2046
    [ -n "$(cd "$root" && find $(sources) -newer "$1")" ]
}

# need_archive: tests for what find_archive takes.
need_archive() {
    if [ -n "$given_archive" ]; then
        return 0
    elif [ "$stand_in" = yes ]; then
        need ar "to make the stand-in (Debian: binutils)"
    else
        need rt "to prove and build the library (or give --archive FILE)"
    fi
}

# The archive is for any x86-64: rt's own choice would be x86-64-v2.
processor=x86-64

# is_over_ci: whether rt ci has passed on these sources here (take_over.sh) and its libraries lie in crates/*/out as it
# left them: rt check and rt lib put others there, each with a stamp.
is_over_ci() {
    [ -n "$sum" ] && [ "$(cat "$build/passed" 2> /dev/null)" = "$sum" ] &&
        ! ls "$root"/crates/*/out/rlib/stamp > /dev/null 2>&1
}

# build_archive: proves this folder's crate and writes its archive: by rt lib, or else over the libraries that rt ci left,
# which rt lib would not take: it would prove each of them once more.
build_archive() {
    if ! is_over_ci; then
        rt lib --cpu "$processor"
    elif ! build_over_ci; then
        echo "the archive was not built over what rt ci left"
        rt lib --cpu "$processor"
    fi
}

# build_over_ci: what rt lib does with a static library, as `rattle build --help` says it, without building what lies below.
build_over_ci() (
    kit=$(dirname "$(rt doc)")
    own=$(basename "$PWD")
    set -- --extern "std=$kit/rlibs/std.rlib" -L "dependency=$kit/rlibs"
    for library in $(sed -n "s/#.*//;s/^$own staticlib *://p" "$root/crates.txt"); do
        set -- "$@" --extern "$library=../$library/out/rlib/$library.rlib"
    done
    for folder in ../*/out/rlib; do
        set -- "$@" -L "dependency=$folder"
    done
    mkdir -p out
    "$kit/bin/rattle" build --crate-name "$own" src/lib.rt --crate-type staticlib --links "$own=" "$@" \
        --antt-project "$kit/rattle/logic/antt-project.json" --logic-built "$kit/logic_built" --jobs 2 \
        --toolchain "$kit/toolchain" --backend llvm --cpu "$processor" -o "out/lib$own.a"
)

# find_archive CRATE: sets archive: the one given, the stand-in, or that of the static library CRATE, which rt proves and
# writes. The stand-in is compiled with -DPLAIN_PAIRS=$pairs.
pairs=1

find_archive() {
    need_archive
    if [ -n "$given_archive" ]; then
        archive=$given_archive
    elif [ "$stand_in" = yes ]; then
        object stand-in.o plain/plain.c -DPLAIN_PREFIX=smallwood -DPLAIN_PAIRS="$pairs"
        object stand-in-keccak.o plain/keccak.c
        archive=$build/stand-in/libsmallwood.a
        mkdir -p "$build/stand-in"
        rm -f "$archive"
        ar rcs "$archive" "$build/stand-in.o" "$build/stand-in-keccak.o"
        echo "stand-in: the plain C implementation under the library's names, PLAIN_PAIRS=$pairs"
    else
        archive=$root/crates/$1/out/lib$1.a
        built "$1" "out/lib$1.a" build_archive
    fi
}

# find_crate_program CRATE: sets program: the crate's, which rt proves, builds and runs once.
find_crate_program() {
    program=$root/crates/$1/out/$1
    built "$1" "out/$1" rt run
}

# need_before: tests for what find_before takes.
need_before() {
    [ -z "$given_before" ] || for tool in ld nm objcopy; do need "$tool" "for --before (Debian: binutils)"; done
}

# find_before PREFIX: sets before: nothing without --before; with it, what to compile and link beside the archive. The
# older archive exports the same names, so it is made one object that shows its PREFIX_* as before_*, and no other name.
find_before() {
    before=
    [ -n "$given_before" ] || return 0
    need_before
    before="-DBEFORE $build/before.o"
    ld -r --whole-archive "$given_before" -o "$build/before.o"
    objcopy --wildcard --keep-global-symbol="$1_*" "$build/before.o"
    nm -g --defined-only "$build/before.o" | sed -n "s/.* $1_\(.*\)/$1_\1 before_\1/p" > "$build/before.names"
    [ -s "$build/before.names" ] || fail "$given_before has no functions $1_*"
    objcopy --redefine-syms="$build/before.names" "$build/before.o"
}

# count_inside FUNCTION COMMAND [WORDS...]: instructions inside that function, as callgrind counts them
count_inside() {
    inside=$1
    shift
    counted=$(valgrind --tool=callgrind --callgrind-out-file=/dev/null --toggle-collect="$inside" "$@" 2>&1 |
        sed -n 's/.*Collected : \([0-9]*\).*/\1/p')
    [ "${counted:-0}" -gt 0 ] || fail "callgrind gave no count for $inside"
    echo "$counted"
}

# count_calls FUNCTION CALLED COMMAND [WORDS...]: how often CALLED is entered inside FUNCTION: how often callgrind sees
# its first instruction there. The calls that callgrind counts would be those outside, too.
count_calls() {
    inside=$1
    called=$2
    shift 2
    valgrind --tool=callgrind --callgrind-out-file="$build/calls" --toggle-collect="$inside" --dump-instr=yes \
        --compress-strings=no --compress-pos=no "$@" > "$build/calls.log" 2>&1 ||
        fail "$* failed under callgrind: see $build/calls.log"
    grep -q "^fn=$inside\$" "$build/calls" || fail "callgrind saw no $inside"
    awk -v called="$called" '
        /^fn=/ { own = substr($0, 4) == called }
        /^calls=/ { getline; next } # the cost of a callee
        own && /^0x/ {
            at = sprintf("%18s", $1)
            if (first == "" || at < first) { first = at; count = 0 }
            if (at == first) count += $3
        }
        END { print count + 0 }' "$build/calls"
}

# read_options WORDS...: sets given_* and the switches below. A script names the options that it takes in `takes`, and
# has --help besides. Any other option is refused, and so are parts of a name; other words stay in `words`, the last of
# them in `word`, for the script to take or refuse (no_words, one_word).
takes=
given_archive=
given_before=
given_program= # the checking program
given_counts=  # the program `counts`
given_long=    # how many drawn inputs
given_seed=
without_program=no
stand_in=no
faults=no
words=
word=
word_count=0
options_seen=

usage() {
    sed -n '2,/^$/s/^# \{0,1\}//p' "$0"
}

read_options() {
    while [ $# -gt 0 ]; do
        case $1 in
            --help)
                usage
                exit 0
                ;;
            --*) know_option "$1" ;;
        esac
        case $1 in
            --archive | --before | --program | --counts)
                [ $# -gt 1 ] || fail "$1 needs a file"
                take_file "$1" "$2"
                shift
                ;;
            --long)
                is_count "${2-}" || fail "--long needs a number of inputs, such as 100000"
                given_long=$2
                shift
                ;;
            --seed)
                is_count "${2-}" || fail "--seed needs a whole number from 1 on"
                given_seed=$2
                shift
                ;;
            --stand-in) stand_in=yes ;;
            --without-program) without_program=yes ;;
            --faults) faults=yes ;;
            *)
                words="$words $1"
                word=$1
                word_count=$((word_count + 1))
                ;;
        esac
        shift
    done
    [ "$stand_in" = no ] || [ -z "$given_archive" ] || fail "--archive and --stand-in: one library alone"
}

# know_option OPTION: refuses one that the script does not take, and one that has come already.
know_option() {
    case " $takes " in
        *" $1 "*) ;;
        *) fail "no such option: $1 (--help names them)" ;;
    esac
    case " $options_seen " in *" $1 "*) fail "$1 is given twice" ;; esac
    options_seen="$options_seen $1"
}

# take_file OPTION FILE
take_file() {
    [ -f "$2" ] || fail "$1: there is no file $2"
    case $1 in
        --archive | --before) head -c 7 "$2" | grep -q '^!<arch>' || fail "$1: $2 is no archive" ;;
        *) [ -x "$2" ] || fail "$1: $2 is no program" ;;
    esac
    case $2 in
        /*) taken=$2 ;;
        *) taken=$PWD/$2 ;; # so that no program takes it for an option or a command on the path
    esac
    case $1 in
        --archive) given_archive=$taken ;;
        --before) given_before=$taken ;;
        --program) given_program=$taken ;;
        --counts) given_counts=$taken ;;
    esac
}

# is_count WORD: whether it is a whole number from 1 on.
is_count() {
    case $1 in
        *[!0123456789]*) return 1 ;;
        *[123456789]*) return 0 ;;
        *) return 1 ;;
    esac
}

no_words() {
    [ "$word_count" -eq 0 ] || fail "no such word:$words (--help names what there is)"
}

# one_word: there is one word at most.
one_word() {
    [ "$word_count" -le 1 ] || fail "one word is taken, and there are $word_count:$words"
}
