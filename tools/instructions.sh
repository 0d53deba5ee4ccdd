#!/bin/sh
# Looks whether the archive has instructions of the x86-64 baseline alone: SSE2 and what is older. Every mnemonic that
# objdump prints has to be in the lists below, and no encoding VEX, EVEX or REX2. Then controls: an object that is
# compiled for a later processor, added to a copy of the archive, has to be found. A summary line; exit status 1 where
# an instruction is found, or a control is not.
#
#     tools/instructions.sh
#
#     --archive FILE     looks at this archive and does not build the library
#
# Needs gcc, objdump and ar, and rt unless an archive is given.

set -eu
. "$(dirname "$0")/common.sh"

takes='--archive'
read_options "$@"
no_words
need_compiler
need objdump "to read the archive's code (Debian: binutils)"
need ar "to add to a copy of the archive (Debian: binutils)"
need_archive
find_archive smallwood_c

# The baseline, as far as it occurs, by AMD64 Architecture Programmer's Manual, volumes 3 and 4. Integer instructions
# may have objdump's ending b, w, l or q; of j, set and cmov there is one for each condition.
integer='adc add and call cmp dec div imul inc jmp lea mov movabs movzb movzw mul neg nop not or pop push ret rol shl shr
    sub test xchg xor'
sse='movaps movlps movmskps movups orps shufps xorps'
sse2='movd movdqa movdqu movq movsd packssdw paddd paddq pand pandn pcmpeqb pcmpeqd pcmpgtd pmovmskb pmuludq por pshufd pshuflw
    pslld psllq psllw psrlq psubd psubq punpckhdq punpckhwd punpckldq punpcklqdq punpcklwd pxor'
conditions='a ae b be e g ge l le ne no np ns o p s'

# Where ud2, which stops a program, may stand: once in each of these functions, behind a branch that is taken where a
# divisor is 0. The contracts exclude that, and the proofs hold every caller to them; the compiler does not know.
#     evaluation_test::choosing_walk  barycentric::inverses in it: q modulo k as a u32, where a table has over 2^32 entries
#     proof_checker::check_proof      leaf_draw::draw_leaves in it: a word modulo leaves - j, where more leaves are drawn
#     smallwood_prove                 than there are
#     reply_tests::words_verdict      horner::evaluate_by in it: the width divided by a span of 0, where the width is 0
stops='evaluation_test::choosing_walk proof_checker::check_proof smallwood_prove reply_tests::words_verdict'

# list ARCHIVE: its code, a line for each instruction
list() {
    LC_ALL=C objdump -d -w "$1"
}

# look: reads such lines; prints what is not of the baseline, and last a line with the numbers.
look() {
    awk -F '\t' -v integer="$integer" -v others="$sse $sse2" -v conditions="$conditions" -v stops="$stops" '
        function find(what) { print "instructions: " function_name ": " what; wrong++ }
        BEGIN {
            n = split(integer, words, /[ \n]+/)
            for (i = 1; i <= n; i++) {
                known[words[i]]
                for (j = 1; j <= 4; j++) known[words[i] substr("bwlq", j, 1)]
            }
            n = split(others, words, /[ \n]+/)
            for (i = 1; i <= n; i++) known[words[i]]
            n = split(conditions, words, " ")
            for (i = 1; i <= n; i++) { known["j" words[i]]; known["set" words[i]]; known["cmov" words[i]] }
            n = split(stops, words, " ")
            for (i = 1; i <= n; i++) expected[words[i]] = 1
        }
        /^[0-9a-f]+ <.*>:$/ { function_name = $0; sub(/^[^<]*</, "", function_name); sub(/>:$/, "", function_name) }
        NF >= 3 {
            count++
            line = $3
            while (line ~ /^(data16|cs) .*nop/) sub(/^[a-z0-9]+ /, "", line) # padding
            mnemonic = line
            sub(/ .*/, "", mnemonic)
            kinds[mnemonic]
            bytes = $2
            while (bytes ~ /^(66|67|2e|36|3e|26|64|65|f0|f2|f3) /) bytes = substr(bytes, 4)
            if (mnemonic == "ud2") stopped[function_name]++
            else if (!(mnemonic in known)) find($3)
            else if (bytes ~ /^(c4|c5|62|d5) / || line ~ /%[yz]mm|%k[0-7]/) find($3 " (" $2 ")")
        }
        END {
            for (name in stopped) expected[name] += 0
            for (name in expected) {
                function_name = name
                times = stopped[name] + 0
                if (times != expected[name]) find("ud2 " times " times, expected " expected[name])
            }
            for (name in kinds) different++
            print (count + 0) " instructions, " (different + 0) " kinds"
            exit (wrong > 0 || count == 0)
        }'
}

if ! list "$archive" > "$build/code" || ! look < "$build/code" > "$build/looked"; then
    cat "$build/looked"
    echo "instructions: not of the x86-64 baseline alone"
    exit 1
fi
found=$(cat "$build/looked")

# ---- Controls

# add WORDS...: a copy of the archive with what is compiled from standard input by these words
add() {
    "$CC" -O2 "$@" -x c -c - -o "$build/control.o"
    cp "$archive" "$build/control.a"
    ar q "$build/control.a" "$build/control.o" 2> /dev/null
}

missed=0 controls=0
# miss WHAT
miss() {
    echo "instructions: control: $1"
    missed=$((missed + 1))
}

# later MNEMONIC C-TEXT WORDS...: what these words let the compiler use is found, by that mnemonic
later() {
    mnemonic=$1
    printf '#include <immintrin.h>\n%s\n' "$2" > "$build/control.c"
    shift 2
    add "$@" < "$build/control.c"
    controls=$((controls + 1))
    if list "$build/control.a" | look > "$build/looked" || ! grep -q ": $mnemonic" "$build/looked"; then
        miss "$* is not found"
    fi
}

add -march=x86-64 << 'END'
unsigned control(unsigned a, unsigned b) { return a < b ? a * b : a + b; }
END
list "$build/control.a" | look > "$build/looked" || miss "found where nothing is wrong: $(head -n 1 "$build/looked")"

vector='__m128i control(__m128i a, __m128i b) { return'
later lddqu '__m128i control(const __m128i *a) { return _mm_lddqu_si128(a); }' -msse3
later pshufb "$vector _mm_shuffle_epi8(a, b); }" -mssse3
later pmulld "$vector _mm_mullo_epi32(a, b); }" -msse4.1
later pcmpgtq "$vector _mm_cmpgt_epi64(a, b); }" -msse4.2
later vpaddd "$vector _mm_add_epi32(a, b); }" -mavx
later vpaddd '__m256i control(__m256i a, __m256i b) { return _mm256_add_epi32(a, b); }' -mavx2
later vpaddd '__m512i control(__m512i a, __m512i b) { return _mm512_add_epi32(a, b); }' -mavx512f
later aesenc "$vector _mm_aesenc_si128(a, b); }" -maes
later pclmul "$vector _mm_clmulepi64_si128(a, b, 0); }" -mpclmul
later sha256msg1 "$vector _mm_sha256msg1_epu32(a, b); }" -msha
number='unsigned long long control(unsigned long long a, unsigned long long b, unsigned long long *c) { return'
later popcnt "$number __builtin_popcountll(a + b + *c); }" -mpopcnt
later lzcnt "$number __builtin_clzll(a + b + *c); }" -mlzcnt
later andn "$number ~a & (b + *c); }" -mbmi
later mulx "$number _mulx_u64(a, b, c); }" -mbmi2
later movbe "$number __builtin_bswap64(*c) + a + b; }" -mmovbe
later adcx "$number ({ __asm__(\"adcx %1, %0\" : \"+r\"(a) : \"r\"(b)); a + *c; }); }" -madx
later lahf "$number ({ __asm__(\"lahf\" ::: \"rax\"); a + b + *c; }); }" -msahf
later 'lock cmpxchg16b' 'int control(__int128 *a) { return __sync_bool_compare_and_swap(a, 1, 2); }' -mcx16
later 'ud2 1 times, expected 0' 'void control(void) { __builtin_trap(); }' -march=x86-64

controls=$((controls + 1))
! grep -v "ud2" "$build/code" | look > "$build/looked" || miss "a ud2 that is gone is not found"
[ "$missed" = 0 ] || exit 1
stop_count=$(echo "$stops" | wc -w)
echo "instructions: $found, all of the x86-64 baseline; ud2 in $stop_count functions; $controls controls found"
