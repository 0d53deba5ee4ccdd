"""Tests the comparison itself: broken copies of the plain C implementation have to be found out.

    python3 conformance_faults.py FOLDER [--cc COMPILER]

Each fault below edits a file of plain/. A copy with the edit is built in FOLDER and compared
like the library; the first label that differs is shown. A copy without an edit has to pass. The exit status
is 1 when a fault is not found.
"""

import shutil
import subprocess
import sys
from pathlib import Path

from conformance import DRAWN, EVERY, Broken, Caller, call_groups, program_differences, program_groups
from arguments import Arguments  # (conformance makes it importable)

PLAIN = Path(__file__).resolve().parent / "plain"

SALTED = "strings[0] = mark;\n        memcpy(strings + 1, salt, SALT_BYTES);"


def salted(mark, begun):
    """The beginning of strings where that of the strings with this mark is another."""
    return "if (mark == %s) {\n %s\n } else {\n %s\n }" % (mark, begun, SALTED)


def leaf_strings(name, prefix, begun):
    """Edits that let leaf strings begin otherwise, with so many bytes before the index."""
    return (
        (name, "tree.h", "#define LEAF_PREFIX (SALTED_PREFIX +", "#define LEAF_PREFIX (%s +" % prefix),
        (name, "tree.h", "to[SALTED_PREFIX] =", "to[%s] =" % prefix),
        (name, "tree.h", "to[SALTED_PREFIX + 1] =", "to[%s + 1] =" % prefix),
        (name, "tree.h", SALTED, salted("LEAF_MARK", begun)),
    )


def node_strings(name, prefix, begun):
    """The same for node strings, with so many bytes before the children."""
    return (
        (name, "tree.h", "#define NODE_STRING (SALTED_PREFIX +", "#define NODE_STRING (%s +" % prefix),
        (name, "tree.h", "memcpy(to + SALTED_PREFIX, left,", "memcpy(to + %s, left," % prefix),
        (name, "tree.h", "memcpy(to + SALTED_PREFIX + DIGEST_BYTES, right,",
         "memcpy(to + %s + DIGEST_BYTES, right," % prefix),
        (name, "tree.h", SALTED, salted("NODE_MARK", begun)),
    )  # fmt: skip


# (what is wrong, file of plain/, text that stands once in it, text in its place). Some edits follow one another with
# the same name: they make one fault.
FAULTS = (
    ("check: batching at the first opened leaf only", "check.h",
     "fill_power_table(q->opened", "if (b > 0)\n break;\n fill_power_table(q->opened"),
    ("check: batching in the first repetition only", "check.h",
     "if (evaluate(&table, r->batchings[k],", "if (k == 0 && evaluate(&table, r->batchings[k],"),
    ("check: answers at the first opened leaf only", "check.h",
     "uint32_t distance = s->leaves", "if (b > 0)\n break;\n uint32_t distance = s->leaves"),
    ("check: the last answer is not tested", "check.h",
     "if (sums[p] != multiply(", "if (p + 1 < s->m && sums[p] != multiply("),
    ("check: T at value points", "check.h",
     "if (sums[p] != multiply(sums[s->m], rows[p]))", "if (r->answers[p][b % s->columns] != rows[p])"),
    ("check: answers before batching", "check.h",
     "if (!batchings_hold(", "if (!answers_hold(q, r))\n return 10;\n if (!batchings_hold("),
    ("check: accepts all roots", "check.h",
     "if (!root_holds(q, r))", "if (0)"),
    ("check: 31 bytes of the root", "check.h",
     "memcmp(digests[0], q->root, DIGEST_BYTES)", "memcmp(digests[0], q->root, DIGEST_BYTES - 1)"),
    ("check: value buffer tested after the reply's length", "check.h",
     "if (value_bytes != ", "if (reply_bytes != exact_size(&q))\n return 7;\n if (value_bytes != "),
    ("check: a reply's elements reduced", "check.h",
     "good &= are_elements(r->answers[p], s->width);",
     "for (uint32_t c = 0; c < s->width; c++)\n r->answers[p][c] %= Q;"),
    ("check: values written before a refusal", "check.h",
     "if (!answers_hold(q, r))", "store_values(q, r, values);\n if (!answers_hold(q, r))"),
    ("check: a byte written behind the values", "check.h",
     "store_values(q, r, values);", "store_values(q, r, values);\n values[4 * q->sizes.w * q->sizes.m] = 0;"),
    ("check: a byte written behind values at odd addresses", "check.h",
     "store_values(q, r, values);",
     "store_values(q, r, values);\n if ((uintptr_t)values % 2)\n values[4 * q->sizes.w * q->sizes.m] = 0;"),
    ("check: a byte read behind the reply", "check.h",
     "if (!read_reply(", "(void)*(const volatile uint8_t *)(reply + reply_bytes);\n if (!read_reply("),
    ("check: words at odd addresses are 0", "bytes.h",
     "copy(words, from, 4 * count);",
     "if ((uintptr_t)from % 4)\n memset(words, 0, 4 * count);\n else\n copy(words, from, 4 * count);"),
    ("check: remembers the last accepted root", "check.h",
     "if (!root_holds(q, r))\n        return 8;",
     "static uint8_t last[32];\n if (memcmp(last, q->root, 32) && !root_holds(q, r))\n return 8;\n"
     "memcpy(last, q->root, 32);"),
    ("check: equal points must have equal answers", "check.h",
     "if (!answers_hold(q, r))",
     "if (q->sizes.m > 1 && q->points[0] == q->points[1] && memcmp(r->answers[0], r->answers[1], 4))\n return 10;\n"
     "if (!answers_hold(q, r))"),
    ("question: index N is taken", "question.h",
     "indices[b] >= s->leaves", "indices[b] > s->leaves"),
    ("question: equal indices are taken", "question.h",
     "indices[b] <= q->opened", "indices[b] < q->opened"),
    ("question: sizes before mark", "question.h",
     "\\3\", 5) != 0)", "\\3\", 5) != 0 && bytes[5] != 0)"),
    ("question: the version's upper byte is not read", "question.h",
     "\\3\", 5) != 0)", "\\3\", 4) != 0)"),
    ("question: elements after indices", "question.h",
     "return 3;\n    q->opened.count", "number = 3;\n    q->opened.count"),
    ("question: elements after indices", "question.h",
     "            return 4;\n    }\n    return 0;", "            return 4;\n    }\n    return number;"),
    ("all: q is an element", "bytes.h",
     "words[i] >= Q ?", "words[i] > Q ?"),
    ("all: batching from power 0", "open.h",
     "copy(factors[k], from_power_0 + 1,", "copy(factors[k], from_power_0,"),
    ("all: batching from power 0", "check.h",
     "factors[0] + 1, MAX_ROWS + 1,", "factors[0], MAX_ROWS + 1,"),
    *leaf_strings("all: leaf without first byte", "SALT_BYTES", "memcpy(strings, salt, SALT_BYTES);"),
    *node_strings("all: node without first byte", "SALT_BYTES", "memcpy(strings, salt, SALT_BYTES);"),
    ("all: siblings that can be computed are listed", "tree.h",
     "return at + 1 < level->count &&", "return at + 1 < level->count && level->count > 2 &&"),
    ("all: power 0 of 0 is 0", "field.h",
     "uint32_t power = 1;", "uint32_t power = x != 0;"),
    ("commit: only the product of w and nu is tested, in 32 bits", "sizes.h",
     "s->nu < 1 || s->nu > MAX_COLUMNS ||", "s->nu < 1 ||"),
    ("commit: only the product of w and nu is tested, in 32 bits", "sizes.h",
     "s->w > MAX_COLUMNS ||", ""),
    ("commit: the table's old words tested", "commit.h",
     "    fill_table(&s", "    if (!are_elements(table, table_count))\n return 3;\n fill_table(&s"),
    ("commit: masks not tested", "commit.h",
     "!are_elements(masks, mask_count))\n        return 3;\n    fill_table", "0)\n return 3;\n fill_table"),
    ("commit: a word written before the tests", "commit.h",
     "if (!lengths_hold(&s,", "if (table_count > 0)\n table[0] = 0;\n if (!lengths_hold(&s,"),
    ("commit: the root is not written", "tree.h",
     "made + 1 < leaves; made", "made + 2 < leaves; made"),
    ("commit: writes nothing", "commit.h",
     "    fill_table(&s", "    return 0;\n fill_table(&s"),
    ("commit: leaf 4095 is hashed as 0", "tree.h",
     "to[SALTED_PREFIX] = (uint8_t)index;", "to[SALTED_PREFIX] = (uint8_t)(index == 4095 ? 0 : index);"),
    ("open: table not tested", "open.h",
     " ||\n        !are_elements(table, table_count))", ")"),
    ("open: the root is not compared", "open.h",
     "if (!names(&q, tree + tree_bytes - DIGEST_BYTES,", "if (!names(&q, q.root,"),
    ("length: the bound", "plain.c",
     "*length = exact_size(&q);", "*length = reply_size(&q.sizes, (size_t)q.sizes.l * q.sizes.h);"),
    ("length: one node too many", "plain.c",
     "*length = exact_size(&q);", "*length = exact_size(&q) + DIGEST_BYTES;"),
    ("length: one node too few for 64 leaves", "plain.c",
     "*length = exact_size(&q);", "*length = exact_size(&q) - (q.sizes.l == 64 ? DIGEST_BYTES : 0);"),
    ("length: only 32 bits are written", "plain.c",
     "*length = exact_size(&q);", "*(uint32_t *)length = (uint32_t)exact_size(&q);"),
    ("length: written after a refusal", "plain.c",
     "        return number;\n    *length = exact_size(&q);",
     "        return *length = 0, number;\n    *length = exact_size(&q);"),
    ("length: not written", "plain.c",
     "*length = exact_size(&q);", ""),
    ("length: 3 for bad indices", "plain.c",
     "        return number;\n    *length = exact_size(&q);",
     "        return number == 4 ? 3 : number;\n    *length = exact_size(&q);"),
    ("length: bad indices are taken", "plain.c",
     "    if (number != 0)\n        return number;\n    *length = exact_size(&q);",
     "    if (number != 0 && number != 4)\n        return number;\n    *length = exact_size(&q);"),
    ("length: a byte read behind the question", "plain.c",
     "*length = exact_size(&q);",
     "(void)*(const volatile uint8_t *)(question + question_bytes);\n *length = exact_size(&q);"),
    ("open: takes a longer buffer", "open.h",
     "if (reply_bytes != exact_size(&q) ||", "if (reply_bytes < exact_size(&q) ||"),
    ("open: takes a buffer of the bound too", "open.h",
     "if (reply_bytes != exact_size(&q) ||",
     "if ((reply_bytes != exact_size(&q) && reply_bytes != reply_size(s, (size_t)s->l * s->h)) ||"),
    ("open: wants a buffer of the bound", "open.h",
     "if (reply_bytes != exact_size(&q) ||", "if (reply_bytes != reply_size(s, (size_t)s->l * s->h) ||"),
    ("open: the buffer's length is tested last", "open.h",
     "if (reply_bytes != exact_size(&q) ||", "if ("),
    ("open: the buffer's length is tested last", "open.h",
     "return 8;\n    to = store_all", "return 8;\n if (reply_bytes != exact_size(&q))\n return 2;\n to = store_all"),
    ("open: the length is not written", "open.h",
     "*length = (uint64_t)(to - reply);", ""),
    ("open: length 0 after a refusal", "open.h",
     "uint8_t *to = reply;", "uint8_t *to = reply;\n *length = 0;"),
    ("open: a table that is not the committed one is refused", "open.h",
     "to = store_records(&q, table, nonces, to);",
     "for (uint32_t b = 0; b < s->l; b++) {\n uint32_t i = q.opened.indices[b];\n"
     " uint8_t string[MAX_LEAF_STRING], digest[32];\n"
     "put_salts(string, LEAF_PREFIX + record_size(s), 1, LEAF_MARK, salt);\n"
     "put_leaf(string, i, table + (size_t)i * s->record, s->record, nonces + 32 * (size_t)i);\n"
     "hash(string, LEAF_PREFIX + record_size(s), 1, digest);\n if (memcmp(digest, tree + 32 * (size_t)i, 32))\n"
     " return 8;\n }\nto = store_records(&q, table, nonces, to);"),
    ("open: the last tail is left out", "open.h",
     "dots(room, s->rows,",
     "if (b == 63)\n memset(out[0], 0, sizeof out[0]);\n else\n dots(room, s->rows,"),
    ("open: changes the lent tree", "open.h",
     "*length = (uint64_t)(to - reply);", "*length = (uint64_t)(to - reply);\n ((uint8_t *)(uintptr_t)tree)[0] ^= 1;"),
    ("all: one chain of powers begins with the next power", "field.h",
     "multiply(out[i - CHAINS], power)", "multiply(out[i - CHAINS + (i == CHAINS + 3)], power)"),
    ("all: sums of products are cut to 64 bits", "field.h",
     "reduce(sum.all - (sum.upper << 32) + EXCESS * sum.upper)", "reduce(sum.all)"),
    ("all: the fourth of four rows is the third", "field.h",
     "row[3 * stride + i]", "row[2 * stride + i]"),
    ("all: folding adds the upper half once", "field.h",
     "(uint32_t)x + EXCESS * (x >> 32)", "(uint32_t)x + (x >> 32)"),
    ("all: the second of two strings ends as the first", "keccak.c",
     "last_lane(first, length), last_lane(second,", "last_lane(first, length), last_lane(first,"),
    ("all: the last of an odd number of strings is not hashed", "tree.h",
     "for (; count > 0; count--, strings += length, digests", "for (; 0; count--, strings += length, digests"),
    ("all: the last coefficients, fewer than a span, are left out", "polynomials.h",
     "if (rest > 0)", "if (0)"),
    ("all: spans are taken one power too near", "polynomials.h",
     "powers(multiply(table->within[SPAN - 1], x),", "powers(table->within[SPAN - 1],"),
    ("check: the barycentric total is left out", "check.h",
     "multiply(sums[s->m], rows[p])", "rows[p]"),
    ("check: one weight has the wrong sign", "barycentric.h",
     "if (t % 2 != 0)", "if (t % 2 != 0 && t != 3)"),
    ("check: one weight of another factorial", "barycentric.h",
     "inverse_factorials[width - 1 - t]", "inverse_factorials[width - 1 - t + (t == 2)]"),
    ("check: distances are one too many", "check.h",
     "uint32_t distance = s->leaves -", "uint32_t distance = s->leaves + 1 -"),
    ("check: the inverse of the largest distance is 0", "barycentric.h",
     "inverses[1] = 1;", "inverses[1] = 1;\n inverses[--end] = 0;"),
    ("check: the product of the distances lacks the last", "barycentric.h",
     "above = multiply(above, first + last);", "above = t == 0 ? 1 : multiply(above, first + last);"),
    ("commit: one difference too few", "differences.h",
     "memset(ladder, 0, blank * sizeof(line));\n    for (size_t k = 0; k < width; k++)\n        memcpy",
     "memset(ladder, 0, (blank + 1) * sizeof(line));\n    for (size_t k = 0; k + 1 < width; k++)\n        memcpy"),
    ("commit: the walk begins a step late", "commit.h",
     "(s->leaves - n - i) * s->record", "(s->leaves - n - i - (n + i < s->leaves)) * s->record"),
    ("commit: the walk does not reach leaf 0", "commit.h",
     "i < RUN && n + i <= s->leaves", "i < RUN && n + i < s->leaves"),
    ("commit: one line is never folded", "differences.h",
     "v[9 * LANES + j] = fold(v9);", "v[9 * LANES + j] = v9;"),
    ("commit: differences are not turned", "differences.h",
     "if (width > 1)", "if (0)"),
    ("commit: the second pair of polynomials stands still", "differences.h",
     "j < lanes; j += PAIR", "j < PAIR; j += PAIR"),
    ("commit: masks from the point after N", "commit.h",
     "fill_power_table(s->leaves + c,", "fill_power_table(s->leaves + c + 1,"),
    ("open: a Newton coefficient of another factorial, narrow", "interpolation.h",
     "multiply(v[0], inverse_factorials[k])", "multiply(v[0], inverse_factorials[k + (k == 2)])"),
    ("open: a Newton coefficient of another factorial, wide", "centred.h",
     "inverse_factorials[k]));", "inverse_factorials[k + (k == 7)]));"),
    ("open: narrow rows lack the last factor", "interpolation.h",
     "if (k == 1)", "if (0)"),
    ("open: wide rows lack a product of two points", "centred.h",
     "e2 = a * b + b * c + c * a", "e2 = a * b + b * c"),
    ("open: wide rows are not brought back from the centre", "centred.h",
     "    shift(values, width, lanes);\n", ""),
    ("open: the centre is one too far", "centred.h",
     "first + (uint32_t)(width / 2)", "first + 1 + (uint32_t)(width / 2)"),
    ("program: polynomial before point", "program.c",
     "p + 1, i + 1,", "i + 1, p + 1,"),
    ("program: no line end after the number", "program.c",
     "printf(\"verdict %u\\n\", number);", "printf(\"verdict %u%s\", number, number == 9 ? \"\" : \"\\n\");"),
    ("program: one read only", "program.c",
     "fread(input, 1, sizeof input, stdin)", "(size_t)read(0, input, sizeof input)"),
    ("program: one read only", "program.c",
     "#include <stdio.h>", "#include <stdio.h>\n#include <unistd.h>"),
    ("program: limit of 1000 bytes", "program.c",
     "#define INPUT_LIMIT 65536", "#define INPUT_LIMIT 1000"),
)  # fmt: skip


# The same for proofs.
PROOF_FAULTS = (
    ("proof: kappa's bits are not tested", "proof.h",
     "if (!good)", "if (0)"),
    ("draws: one bit fewer is tested", "draw.h",
     "(MAX_KAPPA - kappa)", "(MAX_KAPPA - kappa + (kappa > 0))"),
    ("draws: at most 8 bits are tested", "draw.h",
     "(MAX_KAPPA - kappa)", "(MAX_KAPPA - (kappa > 8 ? 8 : kappa))"),
    ("draws: each byte's lowest bit first", "draw.h",
     "((uint32_t)draw[0] << 8 | draw[1]) >> (MAX_KAPPA - kappa) == 0",
     "((draw[0] | (uint32_t)draw[1] << 8) & ((1u << kappa) - 1)) == 0"),
    ("draws: the second byte's bits first", "draw.h",
     "((uint32_t)draw[0] << 8 | draw[1])", "((uint32_t)draw[1] << 8 | draw[0])"),
    ("draws: the counter is left out", "keccak.c",
     "state[s->lane] ^= (uint64_t)counter << s->shift;\n    if (s->two) {", "counter = 0;\n if (s->two) {"),
    ("draws: the counter's upper half is left out", "keccak.c",
     "state[s->lane] ^= (uint64_t)counter << s->shift;\n    if (s->two) {",
     "counter &= 0xffff;\n state[s->lane] ^= (uint64_t)counter << s->shift;\n if (s->two) {"),
    ("prove: any counter that qualifies", "draw.h",
     "uint32_t c = 0;\n", "uint32_t c = limit > 2 ? 2 : 0;\n"),
    ("prove: the second of two counters is looked at first", "draw.h",
     "for (uint32_t i = 0; i < 2; i++)\n            if (qualifies", "for (uint32_t i = 2; i-- > 0;)\n if (qualifies"),
    ("prove: the limit is tried too", "draw.h",
     "for (; c < limit; c++)", "for (; c <= limit; c++)"),
    ("prove: a limit of 0 is none", "draw.h",
     "uint32_t c = 0;\n", "uint32_t c = 0;\n limit = limit ? limit : 100;\n"),
    ("prove: limits of 31 bits", "draw.h",
     "uint32_t c = 0;\n", "uint32_t c = 0;\n limit = (int32_t)limit < 0 ? 0 : limit;\n"),
    ("proof: only the least counter is taken", "proof.h",
     "if (!good)", "uint32_t least = 0;\n if (!good || !find_counter(&d, kappa, 1000000, &least) || least != counter)"),
    ("proof: 12 before 7", "proof.h",
     "good = draw_leaves(&d, counter, kappa, &q);",
     "good = draw_leaves(&d, counter, kappa, &q);\n if (!good)\n return 12;"),
    ("proof: 12 before 3", "proof.h",
     "if (!read_reply(s, proof", "if (!good)\n return 12;\n if (!read_reply(s, proof"),
    ("proof: 12 after 8", "proof.h",
     "if (!good)\n        return 12;", "if (!good)\n return root_holds(&q, &r) ? 12 : 8;"),
    ("proof: 3 over the answers before 7", "proof.h",
     "load_words(&counter, proof, 1);",
     "for (size_t i = 0; i < answers_size(s) / 4; i++) {\n load_words(&counter, proof + 4 + 4 * i, 1);\n"
     " if (counter >= Q)\n return 3;\n }\n load_words(&counter, proof, 1);"),
    ("proof: 7 before 2", "proof.h",
     "if (value_bytes != 4", "if (proof_bytes < COUNTER_BYTES + answers_size(s))\n return 7;\n if (value_bytes != 4"),
    ("proof: answers reduced where they are hashed", "proof.h",
     "hash_draws(&d, answers + answers_size(s));",
     "for (size_t i = 0; i < answers_size(s); i += 4) {\n uint32_t word;\n memcpy(&word, answers + i, 4);\n"
     " word %= Q;\n memcpy(answers + i, &word, 4);\n }\n hash_draws(&d, answers + answers_size(s));"),
    ("proof: leaves are drawn only where the counter qualifies", "draw.h",
     "return qualifies(drawn, kappa);",
     "if (!qualifies(drawn, kappa))\n for (uint32_t b = 0; b < s->l; b++)\n q->opened.indices[b] = b;\n"
     "return qualifies(drawn, kappa);"),
    ("draws: leaves not in rising order", "draw.h",
     "opened->count = count;",
     "opened->count = count;\n uint32_t swap = used[0];\n used[0] = used[count - 1];\n used[count - 1] = swap;"),
    ("draws: ranks among all indices", "draw.h",
     "% (leaves - j)), at = 0;\n        for (; at < j && used[at] <= index; at++)\n            index++;",
     "% leaves), at = 0;\n for (uint32_t i = 0; i < j; i++)\n if (used[i] == index) {\n index = (index + 1) % leaves;\n"
     " i = ~(uint32_t)0;\n }\n while (at < j && used[at] < index)\n at++;"),
    ("draws: modulo N", "draw.h",
     "% (leaves - j)), at", "% leaves % (leaves - j)), at"),
    ("draws: ranks from above", "draw.h",
     "(uint32_t)(load_long(words + LONG_WORD * j) % (leaves - j)), at",
     "leaves - j - 1 - (uint32_t)(load_long(words + LONG_WORD * j) % (leaves - j)), at"),
    ("draws: indices from words of 4 bytes", "draw.h",
     "(uint32_t)(load_long(words + LONG_WORD * j) %", "((uint32_t)load_long(words + LONG_WORD * j) %"),
    ("draws: indices from byte 0", "draw.h",
     "drawn + DIGEST_BYTES, &q->opened", "drawn, &q->opened"),
    ("draws: words with the top byte first", "draw.h",
     "memcpy(&word, from, LONG_WORD);", "memcpy(&word, from, LONG_WORD);\n word = __builtin_bswap64(word);"),
    ("draws: challenges from the wrong words", "draw.h",
     "words + LONG_WORD * k", "words + LONG_WORD * (k ^ 1)"),
    ("draws: challenges of 4 bytes", "draw.h",
     "(uint32_t)(load_long(words + LONG_WORD * k) % Q)", "(uint32_t)load_long(words + LONG_WORD * k) % Q"),
    ("draws: all challenges are the first", "draw.h",
     "words + LONG_WORD * k", "words + 0 * k"),
    ("draws: challenges after another first byte", "draw.h",
     "#define CHALLENGE_MARK 0x02", "#define CHALLENGE_MARK 0x03"),
    ("draws: challenges without the salt's last byte", "draw.h",
     "hash(string, sizeof string, 1,", "hash(string, sizeof string - 1, 1,"),
    ("draws: leaves after another first byte", "draw.h",
     "#define DRAW_MARK 0x03", "#define DRAW_MARK 0x02"),
    ("draws: answers are left out", "draw.h",
     "copy(d->string + 1, question, question_bytes);",
     "copy(d->string + 1, question, question_bytes);\n d->answers = d->string + 1 + question_bytes;"),
    ("draws: answers are left out", "draw.h",
     "struct draws {", "struct draws {\n uint8_t *answers;"),
    ("draws: answers are left out", "draw.h",
     "keccak_begin(&d->counted,", "end = d->answers;\n keccak_begin(&d->counted,"),
    ("draws: evaluation answers are left out", "proof.h",
     "hash_draws(&d, store_all_answers(&q, &lent, answers));",
     "store_all_answers(&q, &lent, answers);\n hash_draws(&d, answers + 4 * s->width * s->eta);"),
    ("draws: evaluation answers are left out", "proof.h",
     "hash_draws(&d, answers + answers_size(s));", "hash_draws(&d, answers + 4 * s->width * s->eta);"),
    ("draws: points are left out", "draw.h",
     "return d->string + 1 + question_bytes;", "return d->string + 1 + NAMING_BYTES;"),
    ("draws: the next blocks of output are the first", "keccak.c",
     "memcpy(out, state, RATE_BYTES);\n        permute(state);", "memcpy(out, state, RATE_BYTES);"),
    ("prove: the second of two counters is the first", "keccak.c",
     "(uint64_t)next << s->shift", "(uint64_t)counter << s->shift"),
    ("proof: the counter's top byte first", "proof.h",
     "load_words(&counter, proof, 1);", "load_words(&counter, proof, 1);\n counter = __builtin_bswap32(counter);"),
    ("proof: kappa after the question's length", "question.h",
     "if (kappa > MAX_KAPPA)\n        return 1;\n"
     "    if (length != NAMING_BYTES + 4 * s->m)\n        return 6;",
     "if (length != NAMING_BYTES + 4 * s->m)\n return 6;\n if (kappa > MAX_KAPPA)\n return 1;"),
    ("proof: kappa before mark", "question.h",
     "number = read_header(bytes, s);\n    if (number != 0)\n        return number;\n"
     "    if (kappa > MAX_KAPPA)\n        return 1;",
     "if (kappa > MAX_KAPPA)\n return 1;\n number = read_header(bytes, s);\n if (number != 0)\n return number;"),
    ("proof: kappa 17 is taken", "question.h",
     "if (kappa > MAX_KAPPA)", "if (kappa > MAX_KAPPA + 1)"),
    ("proof: kappa is taken for a byte", "question.h",
     "if (kappa > MAX_KAPPA)", "if ((uint8_t)kappa > MAX_KAPPA)"),
    ("proof: kappa has a sign", "question.h",
     "if (kappa > MAX_KAPPA)", "if ((int32_t)kappa > MAX_KAPPA)"),
    ("proof: a conversation's question is taken too", "question.h",
     "if (length != NAMING_BYTES + 4 * s->m)",
     "if (length != NAMING_BYTES + 4 * s->m &&\n length != NAMING_BYTES + 4 * (s->eta + s->m) + 2 * s->l)"),
    ("proof: points are not tested", "question.h",
     "return are_elements(q->points, s->m) ? 0 : 3;", "return 0;"),
    ("proof: the counter is read first", "proof.h",
     "if (proof_bytes < COUNTER_BYTES", "load_words(&counter, proof, 1);\n if (proof_bytes < COUNTER_BYTES"),
    ("proof: room for the answers alone", "proof.h",
     "if (proof_bytes < COUNTER_BYTES + answers_size(s))", "if (proof_bytes < answers_size(s))"),
    ("proof: longer ones are taken", "proof.h",
     "if (proof_bytes != COUNTER_BYTES + exact_size(&q))", "if (proof_bytes < COUNTER_BYTES + exact_size(&q))"),
    ("proof: a byte read behind it", "proof.h",
     "load_words(&counter, proof, 1);",
     "load_words(&counter, proof, 1);\n (void)*(const volatile uint8_t *)(proof + proof_bytes);"),
    ("proof: accepts nothing", "proof.h",
     "return verify(&q, &r, values);", "return verify(&q, &r, values) + 8;"),
    ("prove: bytes after the proof change", "proof.h",
     "*length = (uint64_t)(to - proof);",
     "*length = (uint64_t)(to - proof);\n memset(to, 0, (size_t)(proof + proof_bytes - to));"),
    ("prove: the last byte of the buffer changes", "proof.h",
     "*length = (uint64_t)(to - proof);",
     "*length = (uint64_t)(to - proof);\n if (to < proof + proof_bytes)\n proof[proof_bytes - 1] = 0;"),
    ("prove: answers written before 11", "proof.h",
     "if (!find_counter(", "copy(proof + COUNTER_BYTES, answers, answers_size(s));\n if (!find_counter("),
    ("prove: length 0 after 11", "proof.h",
     "        return 11;", "        return *length = 0, 11;"),
    ("prove: length is the reply's", "proof.h",
     "*length = (uint64_t)(to - proof);", "*length = (uint64_t)(to - proof - COUNTER_BYTES);"),
    ("prove: length is the buffer's", "proof.h",
     "*length = (uint64_t)(to - proof);", "*length = proof_bytes;"),
    ("prove: takes a longer buffer", "proof.h",
     "if (proof_bytes != COUNTER_BYTES + reply_size(", "if (proof_bytes < COUNTER_BYTES + reply_size("),
    ("prove: a buffer without room for the counter", "proof.h",
     "if (proof_bytes != COUNTER_BYTES + reply_size(", "if (proof_bytes != reply_size("),
    ("prove: 11 before 8", "proof.h",
     "if (!names(&q,", "if (limit == 0)\n return 11;\n if (!names(&q,"),
    ("prove: 11 for 0 only", "proof.h",
     "        return 11;", "        return limit == 0 ? 11 : 0;"),
    ("prove: table not tested", "proof.h",
     " ||\n        !are_elements(table, table_count))", ")"),
    ("prove: the root is not compared", "proof.h",
     "if (!names(&q, tree + tree_bytes - DIGEST_BYTES,", "if (!names(&q, q.root,"),
    ("prove: the counter is not written", "proof.h",
     "to = store_words(proof, &counter, 1);", "to = proof + COUNTER_BYTES;"),
    ("prove: the counter after the reply", "proof.h",
     "to = store_words(proof, &counter, 1);", "to = proof;"),
    ("prove: the counter after the reply", "proof.h",
     "*length = (uint64_t)(to - proof);", "to = store_words(to, &counter, 1);\n *length = (uint64_t)(to - proof);"),
    ("prove: changes the lent tree", "proof.h",
     "*length = (uint64_t)(to - proof);", "*length = (uint64_t)(to - proof);\n ((uint8_t *)(uintptr_t)tree)[0] ^= 1;"),
    ("prove: two at once, one counter over the limit", "draw.h",
     "for (; limit - c > 1; c += 2)", "for (; c < limit; c += 2)"),
)  # fmt: skip


# The same for blinding rows.
LOWERED = (
    "for (uint32_t b = 0; t > 0 && b < s->beta; b++)\n"
    "        room[b] = subtract(room[b], lent->blinds[own - s->beta + b]);"
)

OWN = "copy(room + s->mu, t + 1 < s->nu ? lent->blinds + own : polynomial + s->mu * s->nu, 4 * s->beta);"

BLINDING_FAULTS = (
    ("columns: blinds are not taken off", "columns.h",
     "t > 0 && b < s->beta", "0 && b < s->beta"),
    ("columns: blinds are taken off their own column", "columns.h",
     LOWERED, "for (uint32_t b = 0; t + 1 < s->nu && b < s->beta; b++)\n"
     " room[b] = subtract(room[b], lent->blinds[own + b]);"),
    ("columns: blinds are taken off the last column only", "columns.h",
     "t > 0 && b < s->beta", "t > 0 && t + 1 == s->nu && b < s->beta"),
    ("columns: blinds are taken off twice", "columns.h",
     LOWERED, LOWERED + "\n" + LOWERED),
    ("columns: blinds are added", "columns.h",
     "room[b] = subtract(room[b],", "room[b] = add(room[b],"),
    ("columns: blinds are taken off in 32 bits", "columns.h",
     "room[b] = subtract(room[b], lent->blinds[own - s->beta + b]);",
     "room[b] = (room[b] - lent->blinds[own - s->beta + b]) % Q;"),
    ("columns: blinds are taken off in reverse", "columns.h",
     "lent->blinds[own - s->beta + b]", "lent->blinds[own - 1 - b]"),
    ("columns: blinds are taken off the last rows", "columns.h",
     "room[b] = subtract(room[b],", "room[s->mu - s->beta + b] = subtract(room[s->mu - s->beta + b],"),
    ("columns: the last blind is not taken off", "columns.h",
     "t > 0 && b < s->beta", "t > 0 && b + 1 < s->beta"),
    ("columns: blinds of the first polynomial for all", "columns.h",
     "((size_t)i * (s->nu - 1) + t) * s->beta", "(size_t)t * s->beta"),
    ("columns: blinds of the next polynomial", "columns.h",
     "((size_t)i * (s->nu - 1) + t)", "((size_t)((i + 1) % s->w) * (s->nu - 1) + t)"),
    ("columns: blinds row by row", "columns.h",
     OWN, "for (uint32_t b = 0; b < s->beta; b++)\n room[s->mu + b] = t + 1 < s->nu\n"
     " ? lent->blinds[(size_t)i * (s->nu - 1) * s->beta + b * (s->nu - 1) + t]\n : polynomial[s->mu * s->nu + b];"),
    ("columns: no top coefficients", "columns.h",
     OWN, OWN + "\n if (t + 1 == s->nu)\n memset(room + s->mu, 0, 4 * s->beta);"),
    ("columns: the top coefficients are the first", "columns.h",
     ": polynomial + s->mu * s->nu, 4", ": polynomial, 4"),
    ("columns: the blinding rows come first", "columns.h",
     OWN, OWN + "\n uint32_t other[MAX_ROWS];\n memcpy(other, room, sizeof other);\n"
     " memcpy(room, other + s->mu, 4 * s->beta);\n memcpy(room + s->beta, other, 4 * s->mu);"),
    ("columns: the first of all polynomials come first", "columns.h",
     "c / s->nu, c % s->nu", "c % s->w, c / s->w"),
    ("columns: polynomials stand mu nu apart", "columns.h",
     "(size_t)i * s->each", "(size_t)i * s->mu * s->nu"),
    ("columns: one column has no top coefficients", "columns.h",
     OWN, OWN + "\n if (s->nu == 1)\n memset(room + s->mu, 0, 4 * s->beta);"),
    ("check: blinding rows are left out of batching", "check.h",
     "dots(r->values[b], s->rows, factors[0] + 1,", "dots(r->values[b], s->mu, factors[0] + 1,"),
    ("check: blinding rows are left out of evaluation", "check.h",
     "dots(r->values[b], s->rows, factors[0], MAX_ROWS", "dots(r->values[b], s->mu, factors[0], MAX_ROWS"),
    ("check: masks are taken from behind row mu", "check.h",
     "r->values[b][s->rows + k]", "r->values[b][s->mu + k]"),
    ("check: values by powers of z^(mu + beta)", "check.h",
     "j < s->mu; j++)\n            step", "j < s->rows; j++)\n            step"),
    ("open: blinding rows are left out of batching", "open.h",
     "copy(factors[k], from_power_0 + 1, 4 * s->rows);",
     "memset(factors[k], 0, 4 * s->rows);\n copy(factors[k], from_power_0 + 1, 4 * s->mu);"),
    ("open: blinding rows are left out of evaluation", "open.h",
     "powers(q->points[p], factors[s->eta + p], s->rows);",
     "memset(factors[s->eta + p], 0, 4 * s->rows), powers(q->points[p], factors[s->eta + p], s->mu);"),
    ("all: blinding rows are left out of batching", "open.h",
     "copy(factors[k], from_power_0 + 1, 4 * s->rows);",
     "memset(factors[k], 0, 4 * s->rows);\n copy(factors[k], from_power_0 + 1, 4 * s->mu);"),
    ("all: blinding rows are left out of batching", "check.h",
     "dots(r->values[b], s->rows, factors[0] + 1,", "dots(r->values[b], s->mu, factors[0] + 1,"),
    ("open: blinding rows have no tails", "open.h",
     "room[j] = lent->tails[j * s->l + b];", "room[j] = j < s->mu ? lent->tails[j * s->l + b] : 0;"),
    ("commit: blinding rows have no tails", "commit.h",
     "= lent->tails[(first + j) * s->l + b];", "= first + j < s->mu ? lent->tails[(first + j) * s->l + b] : 0;"),
    ("sizes: beta is not tested against mu", "sizes.h",
     " || s->beta > s->mu", ""),
    ("sizes: as many blinding rows as rows are refused", "sizes.h",
     "s->beta > s->mu", "s->beta >= s->mu"),
    ("sizes: mu + beta is not tested", "sizes.h",
     " || s->mu + s->beta > MAX_ROWS", ""),
    ("sizes: mu + beta of 64 is refused", "sizes.h",
     "s->mu + s->beta > MAX_ROWS", "s->mu + s->beta >= MAX_ROWS"),
    ("sizes: only mu + beta is tested, in 32 bits", "sizes.h",
     "s->mu > MAX_ROWS ||", ""),
    ("sizes: only mu + beta is tested, in 32 bits", "sizes.h",
     "s->beta > MAX_BLINDING || s->beta > s->mu || ", ""),
    ("sizes: 17 blinding rows are taken", "sizes.h",
     "#define MAX_BLINDING 16", "#define MAX_BLINDING 17"),
    ("sizes: 16 blinding rows are refused", "sizes.h",
     "#define MAX_BLINDING 16", "#define MAX_BLINDING 15"),
    ("sizes: no blinding rows are refused", "sizes.h",
     "s->beta > MAX_BLINDING", "s->beta < 1 || s->beta > MAX_BLINDING"),
    ("commit: beta is taken for a byte", "commit.h",
     ".beta = beta}", ".beta = (uint8_t)beta}"),
    ("lengths: blinds are not tested", "sizes.h",
     "           blinds == (size_t)s->w * (s->nu - 1) * s->beta &&\n", ""),
    ("lengths: blinds for every column", "sizes.h",
     "(size_t)s->w * (s->nu - 1) * s->beta", "(size_t)s->w * s->nu * s->beta"),
    ("lengths: one column has blinds", "sizes.h",
     "(size_t)s->w * (s->nu - 1) * s->beta", "(size_t)s->w * (s->nu - (s->nu > 1)) * s->beta"),
    ("lengths: blinds in all columns but one", "sizes.h",
     "(size_t)s->w * (s->nu - 1) * s->beta", "(size_t)(s->w * s->nu - 1) * s->beta"),
    ("lengths: more blinds are taken", "sizes.h",
     "blinds == (size_t)s->w", "blinds >= (size_t)s->w"),
    ("lengths: any blinds where there are none", "sizes.h",
     "blinds == (size_t)s->w * (s->nu - 1) * s->beta",
     "(s->beta == 0 || blinds == (size_t)s->w * (s->nu - 1) * s->beta)"),
    ("commit: blinds are not tested for elements", "commit.h",
     "!are_elements(blinds, blind_count) || ", ""),
    ("open: blinds are not tested for elements", "open.h",
     "!are_elements(blinds, blind_count) || ", ""),
    ("prove: blinds are not tested for elements", "proof.h",
     "!are_elements(blinds, blind_count) || ", ""),
    ("prove: no blinds", "proof.h",
     "struct lent lent = {coefficients, tails, blinds, masks};",
     "static const uint32_t none[4096];\n struct lent lent = {coefficients, tails, none, masks};"),
    ("question: version 1 is taken too", "question.h",
     "\\3\", 5) != 0)", "\\3\", 5) != 0 && memcmp(bytes, \"SWQ\\1\", 5) != 0)"),
    ("question: version 1 is taken instead", "question.h",
     "\\3\", 5) != 0)", "\\1\", 5) != 0)"),
    ("question: 14 bytes are a header", "question.h",
     "if (length < HEADER_BYTES)\n        return 6;\n    number = read_header(bytes, s);\n    if (number != 0)\n"
     "        return number;\n    if (length != NAMING_BYTES + 4 * (s->eta",
     "if (length < HEADER_BYTES - 1)\n return 6;\n number = read_header(bytes, s);\n if (number != 0)\n"
     " return number;\n if (length != NAMING_BYTES + 4 * (s->eta"),
    ("question: beta before m", "question.h",
     "s->m = bytes[13];\n    s->beta = bytes[14];", "s->m = bytes[14];\n    s->beta = bytes[13];"),
    ("question: beta's lower four bits", "question.h",
     "s->beta = bytes[14];", "s->beta = bytes[14] & 15;"),
    ("draws: challenges without byte 14", "draw.h",
     "hash(string, sizeof string, 1,", "string[HEADER_BYTES] = 0;\n hash(string, sizeof string, 1,"),
    ("draws: challenges of another version", "draw.h",
     "hash(string, sizeof string, 1,", "string[4] = 1;\n hash(string, sizeof string, 1,"),
    ("draws: leaves without byte 14", "draw.h",
     "copy(d->string + 1, question, question_bytes);",
     "copy(d->string + 1, question, question_bytes);\n d->string[HEADER_BYTES] = 0;"),
    ("program: splits at 14 bytes", "program.c",
     "#define HEADER_BYTES 15", "#define HEADER_BYTES 14"),
)  # fmt: skip


# The same for the salt.
HASHED = "hash(string, sizeof string, 1, words);"

BEGUN = "copy(d->string + 1, question, question_bytes);\n    return d->string + 1 + question_bytes;"

NAMES = "memcmp(q->root, root, DIGEST_BYTES) == 0 && memcmp(q->salt, salt, SALT_BYTES) == 0"

NAMED = "if (!names(&q, tree + tree_bytes - DIGEST_BYTES, salt))"

LENGTH_2 = "salt_bytes, table_count, tree_bytes))\n        return 2;"


SALT_FAULTS = (
    *leaf_strings("strings: leaves without salt", "1", "strings[0] = mark;"),
    *node_strings("strings: nodes without salt", "1", "strings[0] = mark;"),
    *leaf_strings("strings: leaves with salt after the index", "1",
                  "strings[0] = mark;\n memcpy(strings + 3, salt, SALT_BYTES);")[1:],
    ("strings: salt before the first byte", "tree.h",
     SALTED, "memcpy(strings, salt, SALT_BYTES);\n strings[SALT_BYTES] = mark;"),
    ("strings: leaves with salt before the first byte", "tree.h",
     SALTED, salted("LEAF_MARK", "memcpy(strings, salt, SALT_BYTES);\n strings[SALT_BYTES] = mark;")),
    ("strings: nodes with salt before the first byte", "tree.h",
     SALTED, salted("NODE_MARK", "memcpy(strings, salt, SALT_BYTES);\n strings[SALT_BYTES] = mark;")),
    ("strings: 31 bytes of the salt", "tree.h",
     SALTED, "strings[0] = mark;\n memcpy(strings + 1, salt, SALT_BYTES - 1);\n strings[SALT_BYTES] = 0;"),
    ("strings: the salt without its first byte", "tree.h",
     SALTED, "strings[0] = mark;\n strings[1] = 0;\n memcpy(strings + 2, salt + 1, SALT_BYTES - 1);"),
    ("strings: the salt backwards", "tree.h",
     SALTED, "strings[0] = mark;\n for (size_t i = 0; i < SALT_BYTES; i++)\n strings[1 + i] = salt[31 - i];"),
    ("strings: nodes with a salt of zeros", "tree.h",
     SALTED, salted("NODE_MARK", "strings[0] = mark;\n memset(strings + 1, 0, SALT_BYTES);")),
    ("strings: leaves with a salt of zeros", "tree.h",
     SALTED, salted("LEAF_MARK", "strings[0] = mark;\n memset(strings + 1, 0, SALT_BYTES);")),
    ("strings: the first salt for all calls", "tree.h",
     SALTED, "static uint8_t kept[SALT_BYTES];\n static int is_kept;\n if (!is_kept++)\n"
     " memcpy(kept, salt, SALT_BYTES);\n strings[0] = mark;\n memcpy(strings + 1, kept, SALT_BYTES);"),
    ("commit: no salt in the second of two leaves", "commit.h",
     "put_salts(strings, length, 2, LEAF_MARK, salt);",
     "memset(strings, 0, sizeof strings);\n put_salts(strings, length, 1, LEAF_MARK, salt);"),
    ("commit: no salt in the second of two nodes", "tree.h",
     "put_salts(strings, NODE_STRING, 2, NODE_MARK, salt);",
     "memset(strings, NODE_MARK, sizeof strings);\n put_salts(strings, NODE_STRING, 1, NODE_MARK, salt);"),
    ("check: no salt in the last opened leaf", "check.h",
     "put_salts(strings, length, s->l, LEAF_MARK, q->salt);",
     "memset(strings, 0, sizeof strings);\n put_salts(strings, length, s->l - 1, LEAF_MARK, q->salt);"),
    ("check: no salt in the last of 64 nodes", "tree.h",
     "put_salts(strings, NODE_STRING, opened->count, NODE_MARK, salt);",
     "memset(strings, NODE_MARK, sizeof strings);\n"
     " put_salts(strings, NODE_STRING, opened->count < 64 ? opened->count : 63, NODE_MARK, salt);"),
    ("check: no salt above the first level of nodes", "tree.h",
     "level.count = above;\n    }\n}",
     "level.count = above;\n memset(strings, 0, sizeof strings);\n for (uint32_t i = 0; i < above; i++)\n"
     " strings[NODE_STRING * i] = NODE_MARK;\n    }\n}"),
    ("check: the root for salt", "question.h",
     "q->salt = q->root + DIGEST_BYTES;", "q->salt = q->root;"),
    ("check: the salt from a byte too far", "question.h",
     "q->salt = q->root + DIGEST_BYTES;", "q->salt = q->root + DIGEST_BYTES + 1;"),
    ("check: the salt from a byte too near", "question.h",
     "q->salt = q->root + DIGEST_BYTES;", "q->salt = q->root + DIGEST_BYTES - 1;"),
    ("question: salt before root", "question.h",
     "q->root = bytes + HEADER_BYTES;\n    q->salt = q->root + DIGEST_BYTES;",
     "q->salt = bytes + HEADER_BYTES;\n q->root = q->salt + SALT_BYTES;"),
    ("question: no salt", "question.h",
     "+ DIGEST_BYTES + SALT_BYTES) /*", "+ DIGEST_BYTES) /*"),
    ("question: one without salt is taken too", "question.h",
     "if (length != NAMING_BYTES + 4 * (s->eta + s->m) + 2 * s->l)\n        return 6;",
     "if (length != NAMING_BYTES + 4 * (s->eta + s->m) + 2 * s->l &&\n"
     " length != NAMING_BYTES - SALT_BYTES + 4 * (s->eta + s->m) + 2 * s->l)\n return 6;"),
    ("question: a proof's without salt is taken too", "question.h",
     "if (length != NAMING_BYTES + 4 * s->m)",
     "if (length != NAMING_BYTES + 4 * s->m && length != NAMING_BYTES - SALT_BYTES + 4 * s->m)"),
    ("question: version 2 is taken too", "question.h",
     "\\3\", 5) != 0)", "\\3\", 5) != 0 && memcmp(bytes, \"SWQ\\2\", 5) != 0)"),
    ("question: version 2 is taken instead", "question.h",
     "\\3\", 5) != 0)", "\\2\", 5) != 0)"),
    ("question: version 4 is taken too", "question.h",
     "\\3\", 5) != 0)", "\\3\", 5) != 0 && memcmp(bytes, \"SWQ\\4\", 5) != 0)"),
    ("question: every version up to 3 is taken", "question.h",
     "if (memcmp(bytes, \"SWQ\\3\", 5) != 0)",
     "if (memcmp(bytes, \"SWQ\", 3) != 0 || bytes[3] > 3 || bytes[4] != 0)"),
    ("question: the salt's words are tested for elements", "question.h",
     "read_commitment(bytes, q);\n    bytes += NAMING_BYTES;",
     "read_commitment(bytes, q);\n uint32_t salt[8];\n load_words(salt, q->salt, 8);\n if (!are_elements(salt, 8))\n"
     " return 3;\n bytes += NAMING_BYTES;"),
    ("draws: challenges without salt", "draw.h",
     HASHED, "hash(string, sizeof string - SALT_BYTES, 1, words);"),
    ("draws: challenges with salt before the root", "draw.h",
     HASHED, "memcpy(string + 1 + HEADER_BYTES, q->salt, SALT_BYTES);\n"
     " memcpy(string + 1 + HEADER_BYTES + SALT_BYTES, q->root, DIGEST_BYTES);\n " + HASHED),
    ("draws: challenges with salt after the first byte", "draw.h",
     HASHED, "memcpy(string + 1, q->salt, SALT_BYTES);\n memcpy(string + 1 + SALT_BYTES, question, HEADER_BYTES);\n"
     " memcpy(string + 1 + SALT_BYTES + HEADER_BYTES, q->root, DIGEST_BYTES);\n " + HASHED),
    ("draws: challenges with the root for salt", "draw.h",
     HASHED, "memcpy(string + 1 + HEADER_BYTES + DIGEST_BYTES, q->root, DIGEST_BYTES);\n " + HASHED),
    ("draws: challenges without root", "draw.h",
     HASHED, "memmove(string + 1 + HEADER_BYTES, q->salt, SALT_BYTES);\n"
     " hash(string, sizeof string - DIGEST_BYTES, 1, words);"),
    ("draws: leaves without salt", "draw.h",
     BEGUN, "uint8_t *to = d->string + 1;\n copy(to, question, NAMING_BYTES - SALT_BYTES);\n"
     " copy(to + NAMING_BYTES - SALT_BYTES, question + NAMING_BYTES, question_bytes - NAMING_BYTES);\n"
     " return to + question_bytes - SALT_BYTES;"),
    ("draws: leaves with salt before the root", "draw.h",
     BEGUN, "uint8_t *to = d->string + 1;\n copy(to, question, question_bytes);\n"
     " copy(to + HEADER_BYTES, question + HEADER_BYTES + DIGEST_BYTES, SALT_BYTES);\n"
     " copy(to + HEADER_BYTES + SALT_BYTES, question + HEADER_BYTES, DIGEST_BYTES);\n return to + question_bytes;"),
    ("draws: leaves with salt after the points", "draw.h",
     BEGUN, "uint8_t *to = d->string + 1;\n size_t points = question_bytes - NAMING_BYTES;\n"
     " copy(to, question, NAMING_BYTES - SALT_BYTES);\n to += NAMING_BYTES - SALT_BYTES;\n"
     " copy(to, question + NAMING_BYTES, points);\n"
     " copy(to + points, question + NAMING_BYTES - SALT_BYTES, SALT_BYTES);\n return to + points + SALT_BYTES;"),
    ("draws: leaves with the salt's last byte 0", "draw.h",
     BEGUN, "copy(d->string + 1, question, question_bytes);\n d->string[NAMING_BYTES] = 0;\n"
     " return d->string + 1 + question_bytes;"),
    ("open: the salt is not compared", "open.h",
     NAMED, "if (!names(&q, tree + tree_bytes - DIGEST_BYTES, q.salt))"),
    ("prove: the salt is not compared", "proof.h",
     NAMED, "if (!names(&q, tree + tree_bytes - DIGEST_BYTES, q.salt))"),
    ("open and prove: the salt is not compared", "question.h",
     NAMES, "(void)salt, memcmp(q->root, root, DIGEST_BYTES) == 0"),
    ("open and prove: 31 bytes of the salt", "question.h",
     "memcmp(q->salt, salt, SALT_BYTES)", "memcmp(q->salt, salt, SALT_BYTES - 1)"),
    ("open and prove: the salt without its first byte", "question.h",
     "memcmp(q->salt, salt, SALT_BYTES)", "memcmp(q->salt + 1, salt + 1, SALT_BYTES - 1)"),
    ("open and prove: the salt's first byte", "question.h",
     "memcmp(q->salt, salt, SALT_BYTES)", "memcmp(q->salt, salt, 1)"),
    ("open and prove: the salt's first 8 bytes", "question.h",
     "memcmp(q->salt, salt, SALT_BYTES)", "memcmp(q->salt, salt, 8)"),
    ("open and prove: the salt without byte 16", "question.h",
     "memcmp(q->salt, salt, SALT_BYTES) == 0",
     "memcmp(q->salt, salt, 16) == 0 && memcmp(q->salt + 17, salt + 17, 15) == 0"),
    ("open and prove: the salt and 31 bytes of the root", "question.h",
     "memcmp(q->root, root, DIGEST_BYTES)", "memcmp(q->root, root, DIGEST_BYTES - 1)"),
    ("open and prove: the salt and not the root", "question.h",
     NAMES, "(void)root, memcmp(q->salt, salt, SALT_BYTES) == 0"),
    ("open and prove: root or salt", "question.h",
     "== 0 && memcmp(q->salt", "== 0 || memcmp(q->salt"),
    ("open and prove: root and salt exchanged are taken too", "question.h",
     NAMES, "(%s) ||\n (memcmp(q->salt, root, DIGEST_BYTES) == 0 && memcmp(q->root, salt, SALT_BYTES) == 0)" % NAMES),
    ("open and prove: sums of the salts' bytes", "question.h",
     "memcmp(q->salt, salt, SALT_BYTES) == 0",
     "({ uint32_t a = 0, b = 0;\n for (size_t i = 0; i < SALT_BYTES; i++)\n a += q->salt[i], b += salt[i];\n"
     " a == b; })"),
    ("open: 8 for the salt before 3", "open.h",
     LENGTH_2, LENGTH_2 + "\n if (memcmp(q.salt, salt, SALT_BYTES) != 0)\n return 8;"),
    ("prove: 8 for the salt before 3", "proof.h",
     LENGTH_2, LENGTH_2 + "\n if (memcmp(q.salt, salt, SALT_BYTES) != 0)\n return 8;"),
    ("prove: 11 before 8 for the salt", "proof.h",
     NAMED, "if (limit == 0 && names(&q, tree + tree_bytes - DIGEST_BYTES, q.salt))\n return 11;\n " + NAMED),
    ("open: 2 for another salt", "open.h",
     NAMED, "if (memcmp(q.salt, salt, SALT_BYTES) != 0)\n return 2;\n " + NAMED),
    ("prove: 6 for another salt", "proof.h",
     NAMED, "if (memcmp(q.salt, salt, SALT_BYTES) != 0)\n return 6;\n " + NAMED),
    ("lengths: the salt's is not tested", "sizes.h",
     "salt == SALT_BYTES && ", ""),
    ("lengths: salts of 31 bytes are taken", "sizes.h",
     "salt == SALT_BYTES", "(salt == SALT_BYTES || salt == SALT_BYTES - 1)"),
    ("lengths: salts of 33 bytes are taken", "sizes.h",
     "salt == SALT_BYTES", "(salt == SALT_BYTES || salt == SALT_BYTES + 1)"),
    ("lengths: longer salts are taken", "sizes.h",
     "salt == SALT_BYTES", "salt >= SALT_BYTES"),
    ("lengths: shorter salts are taken", "sizes.h",
     "salt == SALT_BYTES", "salt <= SALT_BYTES"),
    ("lengths: no salt is taken", "sizes.h",
     "salt == SALT_BYTES", "(salt == SALT_BYTES || salt == 0)"),
    ("lengths: twice a salt is taken", "sizes.h",
     "salt == SALT_BYTES", "salt > 0 && salt % SALT_BYTES == 0"),
    ("commit: the salt's length is not tested", "commit.h",
     "salt_bytes, table_count, tree_bytes", "SALT_BYTES, table_count, tree_bytes"),
    ("open: the salt's length is not tested", "open.h",
     "salt_bytes, table_count, tree_bytes", "SALT_BYTES, table_count, tree_bytes"),
    ("prove: the salt's length is not tested", "proof.h",
     "salt_bytes, table_count, tree_bytes", "SALT_BYTES, table_count, tree_bytes"),
    ("commit: the salt's length is tested after the elements", "commit.h",
     "salt_bytes, table_count, tree_bytes", "SALT_BYTES, table_count, tree_bytes"),
    ("commit: the salt's length is tested after the elements", "commit.h",
     "    fill_table(&s", "    if (salt_bytes != SALT_BYTES)\n return 2;\n fill_table(&s"),
    ("commit: the salt's length is tested before the sizes", "commit.h",
     "if (!complete(&s))", "if (salt_bytes != SALT_BYTES)\n return 2;\n if (!complete(&s))"),
    ("open: the salt's length is tested last", "open.h",
     "salt_bytes, table_count, tree_bytes", "SALT_BYTES, table_count, tree_bytes"),
    ("open: the salt's length is tested last", "open.h",
     "    to = store_all_answers(", "    if (salt_bytes != SALT_BYTES)\n return 2;\n to = store_all_answers("),
    ("open: 8 for salts of other lengths", "open.h",
     "if (reply_bytes != exact_size(&q) ||",
     "if (salt_bytes != SALT_BYTES)\n return 8;\n if (reply_bytes != exact_size(&q) ||"),
    ("commit: a byte read behind the salt", "commit.h",
     "    fill_table(&s", "    (void)*(const volatile uint8_t *)(salt + salt_bytes);\n fill_table(&s"),
    ("open: a byte read before the salt", "open.h",
     NAMED, "(void)*(const volatile uint8_t *)(salt - 1);\n " + NAMED),
    ("commit: changes the lent salt", "commit.h",
     "fill_tree(tree, s.leaves, salt);", "fill_tree(tree, s.leaves, salt);\n ((uint8_t *)(uintptr_t)salt)[31] ^= 1;"),
    ("prove: changes the lent salt", "proof.h",
     "*length = (uint64_t)(to - proof);", "*length = (uint64_t)(to - proof);\n ((uint8_t *)(uintptr_t)salt)[0] ^= 1;"),
    ("program: splits without salt", "program.c",
     "(HEADER_BYTES + 2 * 32)", "(HEADER_BYTES + 32)"),
)  # fmt: skip


# The same for the interpolation; all in one file.
REFUSED_13 = "        return 13;"

SAME_LENGTHS = "value_count != point_count || coefficient_count != point_count"

WRITTEN = "memcpy(coefficients, s, 4 * point_count);"


def first_test(test, number):
    """An edit that puts this test before all others."""
    return "if (point_count < 1 ||", "if (%s)\n return %d;\n if (point_count < 1 ||" % (test, number)


def taken_if(test):
    """An edit that takes some equal points; the coefficients stay as they were."""
    return REFUSED_13, "        return %s ? 0 : 13;" % test


def refused_if(test):
    """An edit that refuses some points that differ, with 13."""
    return "    if (!divide(points,", "    if (%s)\n return 13;\n if (!divide(points," % test


def taken_unless(pair):
    """An edit that compares only some pairs of points, those of places j < i that the text chooses."""
    loops = "for (size_t i = 1; i < point_count; i++)\n for (size_t j = 0; j < i; j++)\n"
    return REFUSED_13, "{\n %s if (%s && points[i] == points[j])\n return 13;\n return 0;\n }" % (loops, pair)


INTERPOLATION_FAULTS = tuple(
    ("interpolate: " + name, "any_points.h", *edit)
    for name, edit in (
        ("no points are taken", ("point_count < 1 || ", "")),
        ("one point is refused", ("point_count < 1 ||", "point_count < 2 ||")),
        ("320 points are refused", ("point_count > MAX_SAMPLES", "point_count >= MAX_SAMPLES")),
        ("321 points are taken", ("#define MAX_SAMPLES 320", "#define MAX_SAMPLES 321")),
        ("the number of points is taken for 16 bits",
         ("point_count > MAX_SAMPLES", "(uint16_t)point_count > MAX_SAMPLES")),
        ("any number of values is counted", ("point_count > MAX_SAMPLES", "value_count > MAX_SAMPLES")),
        ("2 before 1", first_test(SAME_LENGTHS, 2)),
        ("3 before 1", first_test("!are_elements(points, point_count) || !are_elements(values, value_count)", 3)),
        ("13 before 1", first_test("point_count > 1 && points[0] == points[point_count - 1]", 13)),
        ("3 before 2",
         ("if (value_count !=", "if (!are_elements(points, point_count) || !are_elements(values, value_count))\n"
          " return 3;\n if (value_count !=")),
        ("13 before 2",
         ("if (value_count !=", "if (point_count > 1 && points[0] == points[point_count - 1])\n"
          " return 13;\n if (value_count !=")),
        ("13 before 3",
         ("if (!are_elements(points,", "if (point_count > 1 && points[0] == points[point_count - 1])\n"
          " return 13;\n if (!are_elements(points,")),
        ("13 before 3 of values",
         ("|| !are_elements(values, value_count))\n        return 3;",
          ")\n return 3;\n if (point_count > 1 && points[0] == points[point_count - 1])\n return 13;\n"
          " if (!are_elements(values, value_count))\n return 3;")),
        ("the values' length is not tested", ("value_count != point_count || ", "")),
        ("the room's length is not tested", (" || coefficient_count != point_count", "")),
        ("more values are taken", ("value_count != point_count", "value_count < point_count")),
        ("fewer values are taken", ("value_count != point_count", "value_count > point_count")),
        ("more room is taken", ("coefficient_count != point_count", "coefficient_count < point_count")),
        ("only the sum of lengths is tested", (SAME_LENGTHS, "value_count + coefficient_count != 2 * point_count")),
        ("room is compared with values only",
         (SAME_LENGTHS, "coefficient_count != value_count || value_count < point_count")),
        ("points are not tested", ("!are_elements(points, point_count) || ", "")),
        ("values are not tested", (" || !are_elements(values, value_count)", "")),
        ("the last point is not tested",
         ("are_elements(points, point_count)", "are_elements(points, point_count - 1)")),
        ("the last value is not tested",
         ("are_elements(values, value_count)", "are_elements(values, value_count - 1)")),
        ("the first value is not tested",
         ("are_elements(values, value_count)", "are_elements(values + 1, value_count - 1)")),
        ("room is tested for elements",
         ("if (!are_elements(points,", "if (!are_elements(coefficients, coefficient_count) || !are_elements(points,")),
        ("points are reduced",
         ("if (!are_elements(points, point_count) ||", "uint32_t own[MAX_SAMPLES];\n"
          " for (size_t i = 0; i < point_count; i++)\n own[i] = points[i] % Q;\n points = own;\n if (")),
        ("values are reduced",
         (" || !are_elements(values, value_count))\n        return 3;",
          ")\n return 3;\n uint32_t own[MAX_SAMPLES];\n for (size_t i = 0; i < point_count; i++)\n"
          " own[i] = values[i] % Q;\n values = own;")),
        ("equal points are taken", taken_if("1")),
        ("4 for equal points", (REFUSED_13, "        return 4;")),
        ("3 for equal points", (REFUSED_13, "        return 3;")),
        ("the last two of many points are not compared",
         taken_if("point_count > 17 && points[point_count - 1] == points[point_count - 2]")),
        ("the first and the last of many points are not compared",
         taken_if("point_count > 17 && points[point_count - 1] == points[0]")),
        ("the points beside the first border of eight are not compared",
         taken_if("point_count > 17 && points[7] == points[8]")),
        ("the points beside the last border of eight are not compared",
         taken_if("point_count == MAX_SAMPLES && points[311] == points[312]")),
        ("the last of 319 points is not compared",
         taken_if("point_count == 319 && points[317] == points[318]")),
        ("neighbours only are compared", taken_unless("j + 1 == i")),
        ("neighbours are not compared", taken_unless("j + 1 < i")),
        ("points are compared with the first only", taken_unless("j == 0")),
        ("points are compared with the last only", taken_unless("i == point_count - 1")),
        ("points are compared within blocks only", taken_unless("i / INVERTED == j / INVERTED")),
        ("points are compared with other blocks only", taken_unless("i / INVERTED != j / INVERTED")),
        ("points eight apart are not compared", taken_unless("i - j != INVERTED")),
        ("the first pair of points is not compared", taken_unless("i > 1")),
        ("the ninth point is not compared", taken_unless("i != INVERTED")),
        ("equal points 0 are taken", taken_unless("points[i] != 0")),
        ("equal points with equal values are taken", taken_unless("values[i] != values[j]")),
        ("only the first block's points are compared", ("if (all == 0)", "if (all == 0 && from == 0)")),
        ("only the last block's points are compared", ("if (all == 0)", "if (all == 0 && count < INVERTED)")),
        ("point 0 is refused", refused_if("points[0] == 0")),
        ("point q - 1 is refused", refused_if("points[point_count - 1] == Q - 1")),
        ("points are compared in 16 bits",
         refused_if("point_count > 1 && (uint16_t)points[0] == (uint16_t)points[1]")),
        ("value 0 is refused", refused_if("values[0] == 0")),
        ("equal values are refused", refused_if("point_count > 1 && values[0] == values[1]")),
        ("room is written before 13",
         ("    if (!divide(points,", "    memcpy(coefficients, values, 4 * point_count);\n if (!divide(points,")),
        ("room is written before 3",
         ("    if (!are_elements(points,", "    coefficients[point_count - 1] = 0;\n if (!are_elements(points,")),
        ("room is written before all tests", first_test("coefficient_count > 0 && (coefficients[0] = 0)", 1)),
        ("the highest coefficient is left", (WRITTEN, "memcpy(coefficients, s, 4 * point_count - 4);")),
        ("the constant is left", (WRITTEN, "memcpy(coefficients + 1, s + 1, 4 * point_count - 4);")),
        ("zeros at the top are left",
         (WRITTEN, "while (point_count > 0 && s[point_count - 1] == 0)\n point_count--;\n " + WRITTEN)),
        ("one coefficient of 320 is left",
         (WRITTEN, "s[200] = point_count == MAX_SAMPLES ? coefficients[200] : s[200];\n " + WRITTEN)),
        ("the highest coefficient stands first",
         (WRITTEN, "for (size_t i = 0; i < point_count; i++)\n coefficients[i] = s[point_count - 1 - i];")),
        ("nothing is written", (WRITTEN, "")),
        ("a word is written behind the room", (WRITTEN, WRITTEN + "\n coefficients[point_count] = 0;")),
        ("a word is read behind the values",
         (WRITTEN, WRITTEN + "\n (void)*(const volatile uint32_t *)(values + value_count);")),
        ("the lent values change", (WRITTEN, WRITTEN + "\n ((uint32_t *)(uintptr_t)values)[0] = s[0];")),
        ("the lent points change", (WRITTEN, WRITTEN + "\n ((uint32_t *)(uintptr_t)points)[0] ^= 1;")),
        ("remembers the last points",
         ("    if (!divide(points,", "    static uint32_t last[MAX_SAMPLES], kept[MAX_SAMPLES];\n"
          " static size_t last_count;\n if (last_count == point_count && !memcmp(last, points, 4 * point_count))\n"
          " return memcpy(coefficients, kept, 4 * point_count), 0;\n if (!divide(points,")),
        ("remembers the last points",
         (WRITTEN, WRITTEN + "\n memcpy(last, points, 4 * point_count);\n memcpy(kept, s, 4 * point_count);\n"
          " last_count = point_count;")),
        ("Newton's form is not expanded", ("    expand_any(points, s, point_count);\n", "")),
        ("the expansion stops before the first points", ("for (; k > 0; k -= FACTORS)", "for (; k > FACTORS; k -= FACTORS)")),
        ("the expansion leaves out a place", ("i = FACTORS; i < count;", "i = FACTORS; i + 2 < count;")),
        ("one factor has the wrong sign", ("uint32_t minus = Q - point;", "uint32_t minus = point;")),
        ("four factors have the wrong sign",
         ("(uint64_t)(Q - points[k]) * e[j - 1]", "(uint64_t)points[k] * e[j - 1]")),
        ("the factors' own coefficients are not expanded", ("expand_one(points[k], s + k, FACTORS - k);", ";")),
        ("the last value is not divided", ("    if (i < n) {", "    if (i + 1 < n) {")),
        ("the first point of a block is left out", ("size_t j = 0; j < k;", "size_t j = 1; j < k;")),
        ("differences of points in 32 bits",
         ("difference(points[from + k], points[from + j])", "(points[from + k] - points[from + j]) % Q")),
        ("differences of points to earlier blocks in 32 bits",
         ("difference(points[i + 1], x)", "(points[i + 1] - x) % Q")),
        ("a short block is taken for a whole one", ("n - k < INVERTED ? n - k : INVERTED", "INVERTED")),
        ("the last block's weights are those before",
         ("k % INVERTED == 0 &&", "k % INVERTED == 0 && (k < INVERTED || k + 1 < n) &&")),
    )
)  # fmt: skip

COUNTED = "    *count = hashing_work(&q);"
LEAVES = "s->l * permutations_of(leaf_size(s)) +"
ABOVE = "count_above(s->h, &q->opened) * permutations_of(NODE_STRING)"


def otherwise(condition, number, change, refused):
    """Instead of a refusal with this number, that with `refused` where the changed question has it."""
    return (
        "    if (%s) {\n uint8_t other[512];\n memcpy(other, question, question_bytes);\n %s\n"
        " if (number == %d && read_question(other, question_bytes, &q) == %d)\n return %d;\n }\n    if (number != 0)\n"
        "        return number;\n" % (condition, change, number, refused, refused)
    )


# The same, of the entry for the check's permutations. No leaf's or node's string has a length that 136 divides: the
# number of blocks, rounded up, is the same number, and no fault.
PERMUTATIONS_FAULTS = tuple(
    ("permutations: " + name, file, old, new)
    for name, file, old, new in (
        ("written after a refusal", "plain.c",
         "        return number;\n" + COUNTED, "        return *count = 0, number;\n" + COUNTED),
        ("written after 4", "plain.c",
         "        return number;\n" + COUNTED,
         "        return *count = number == 4 ? hashing_work(&q) : *count, number;\n" + COUNTED),
        ("not written", "plain.c", COUNTED, ""),
        ("only 32 bits are written", "plain.c", COUNTED, "    *(uint32_t *)count = (uint32_t)hashing_work(&q);"),
        ("a byte read behind the question", "plain.c",
         COUNTED, "    (void)*(const volatile uint8_t *)(question + question_bytes);\n" + COUNTED),
        ("the lent question changes", "plain.c", COUNTED, "    ((uint8_t *)(uintptr_t)question)[20] ^= 1;\n" + COUNTED),
        ("remembers the last header", "plain.c",
         COUNTED, "    static uint8_t last[15];\n static uint64_t kept;\n if (memcmp(last, question, 15))\n"
         " kept = hashing_work(&q);\n memcpy(last, question, 15);\n *count = kept;"),
        ("3 for bad indices", "plain.c",
         "        return number;\n" + COUNTED, "        return number == 4 ? 3 : number;\n" + COUNTED),
        ("bad indices are taken", "plain.c",
         "    if (number != 0)\n        return number;\n" + COUNTED,
         "    if (number != 0 && number != 4)\n        return number;\n" + COUNTED),
        ("sizes before mark", "plain.c",
         "    if (number != 0)\n        return number;\n" + COUNTED,
         otherwise("question_bytes >= 15 && question_bytes < 512", 5, 'memcpy(other, "SWQ\\3", 5);', 1) + COUNTED),
        ("length before sizes", "plain.c",
         "    if (number != 0)\n        return number;\n" + COUNTED,
         "    if (number == 1 && question_bytes < NAMING_BYTES)\n return 6;\n    if (number != 0)\n"
         "        return number;\n" + COUNTED),
        ("elements before length", "plain.c",
         "    if (number != 0)\n        return number;\n" + COUNTED,
         "    uint32_t words[16] = {0};\n"
         " if (number == 6 && question_bytes > NAMING_BYTES && question_bytes < NAMING_BYTES + sizeof words)\n"
         " memcpy(words, question + NAMING_BYTES, question_bytes - NAMING_BYTES);\n"
         " if (number == 6 && !are_elements(words, 16))\n return 3;\n"
         "    if (number != 0)\n        return number;\n" + COUNTED),
        ("indices before elements", "plain.c",
         "    if (number != 0)\n        return number;\n" + COUNTED,
         otherwise("question_bytes >= NAMING_BYTES && question_bytes < 512", 3,
                   "if (number == 3)\n memset(other + NAMING_BYTES, 0, 4 * (q.sizes.eta + q.sizes.m));", 4) + COUNTED),
        ("the bound", "question.h", LEAVES + " " + ABOVE, "s->l * (3 + s->h)"),
        ("one for each leaf", "question.h", LEAVES, "s->l +"),
        ("two for each leaf", "question.h", LEAVES, "2 * s->l +"),
        ("no leaves", "question.h", LEAVES, ""),
        ("the last leaf is left out", "question.h", LEAVES, "(s->l - 1) * permutations_of(leaf_size(s)) +"),
        ("one leaf alone", "question.h", LEAVES, "permutations_of(leaf_size(s)) +"),
        ("leaf strings as one string", "question.h", LEAVES, "permutations_of(s->l * leaf_size(s)) +"),
        ("leaf strings a value longer", "question.h", LEAVES, "s->l * permutations_of(leaf_size(s) + 4) +"),
        ("leaf strings a value shorter", "question.h", LEAVES, "s->l * permutations_of(leaf_size(s) - 4) +"),
        ("leaf strings without salt", "question.h", LEAVES, "s->l * permutations_of(leaf_size(s) - SALT_BYTES) +"),
        ("leaf strings without nonce", "question.h", LEAVES, "s->l * permutations_of(leaf_size(s) - NONCE_BYTES) +"),
        ("leaf strings without masks", "question.h", LEAVES, "s->l * permutations_of(leaf_size(s) - 4 * s->eta) +"),
        ("leaf strings without blinding rows", "question.h",
         LEAVES, "s->l * permutations_of(leaf_size(s) - 4 * s->beta) +"),
        ("leaf strings by their values alone", "question.h", LEAVES, "s->l * permutations_of(4 * s->record) +"),
        ("leaf strings in blocks of 168 bytes", "question.h", LEAVES, "s->l * (leaf_size(s) / 168 + 1) +"),
        ("leaf strings without the last block", "question.h", LEAVES, "s->l * (leaf_size(s) / 136) +"),
        ("leaf strings of two blocks at most", "question.h",
         LEAVES, "s->l * (permutations_of(leaf_size(s)) > 1 ? 2 : 1) +"),
        ("no nodes", "question.h", LEAVES + " " + ABOVE, "s->l * permutations_of(leaf_size(s))"),
        ("the root is left out", "question.h", ABOVE, "count_above(s->h, &q->opened) - 1"),
        ("the root is counted for every leaf", "question.h", ABOVE, "count_above(s->h, &q->opened) + s->l - 1"),
        ("a node above two leaves counted for each", "question.h", ABOVE, "s->l * s->h"),
        ("a node above two neighbours counted twice", "question.h",
         ABOVE, "count_above(s->h, &q->opened) + (s->l > 1 && (q->opened.indices[0] ^ q->opened.indices[1]) == 1)"),
        ("a node above the last two neighbours counted twice", "question.h",
         ABOVE, "count_above(s->h, &q->opened) +\n"
         "(s->l > 2 && (q->opened.indices[s->l - 1] ^ q->opened.indices[s->l - 2]) == 1)"),
        ("nodes above the first and last leaf alone", "question.h",
         ABOVE, "s->h + (s->l > 1 ? highest_bit(q->opened.indices[0] ^ q->opened.indices[s->l - 1]) : 0)"),
        ("missing nodes for those above", "question.h", ABOVE, "count_missing(s->h, &q->opened)"),
        ("missing nodes too", "question.h",
         ABOVE, "count_above(s->h, &q->opened) + count_missing(s->h, &q->opened)"),
        ("two for each node", "question.h", ABOVE, "2 * count_above(s->h, &q->opened)"),
        ("nodes as long as leaves", "question.h", ABOVE, "count_above(s->h, &q->opened) * permutations_of(leaf_size(s))"),
    )
)  # fmt: skip


def grouped():
    """name: its edits."""
    faults = {"none": []}
    others = PROOF_FAULTS + BLINDING_FAULTS + SALT_FAULTS + INTERPOLATION_FAULTS + PERMUTATIONS_FAULTS
    for name, file, old, new in FAULTS + others:
        faults.setdefault(name, []).append((file, old, new))
    return faults


def build(compiler, folder, name, edits):
    """A copy of the plain implementation with the edits: the caller and the program."""
    shutil.rmtree(folder, ignore_errors=True)
    shutil.copytree(PLAIN, folder / "plain")
    shutil.copy(PLAIN.parent / "entries.h", folder)
    for edited, old, new in edits:
        file = folder / "plain" / edited
        text = file.read_text()
        assert text.count(old) == 1, (name, old, text.count(old))
        file.write_text(text.replace(old, new))
    sources = [folder / "plain" / "plain.c", folder / "plain" / "keccak.c"]
    flags = ["-O1", "-march=x86-64", "-w", "-DPLAIN_PREFIX=smallwood", "-DPLAIN_PAIRS=1", "-I", PLAIN.parent]
    for main, out in ((PLAIN.parent / "conformance.c", "caller"), (folder / "plain" / "program.c", "program")):
        subprocess.run([compiler, *flags, main, *sources, "-o", folder / out], check=True)


def first_difference(folder, calls, programs):
    """The first label at which the copy differs, and how; None if it never does."""
    caller = Caller(folder / "caller")
    try:
        for call in calls:
            try:
                found = caller.differences(call)
            except Broken as error:
                found = [str(error)]
            if found:
                return call.label, found[0]
    finally:
        caller.close()
    for case, run in programs:
        found = program_differences(folder / "program", case, run)
        if found:
            return case.label, found[0]
    return None


def main():
    parser = Arguments(__doc__)
    parser.add_argument("folder", metavar="FOLDER", type=Path, help="where the copies are built; it is made")
    parser.add_argument("--cc", metavar="COMPILER", default="gcc", help="the C compiler (default gcc)")
    options = parser.parse_args()
    if shutil.which(options.cc) is None:
        parser.error("'%s' is not installed; it is needed to compile the copies" % options.cc)
    if options.folder.exists() and not options.folder.is_dir():
        parser.error("'%s' is no folder" % options.folder)
    calls = [call for _, group in call_groups(DRAWN, 1) for call in group]
    checks = [call for call in calls if call.entry == "check" and not call.label.startswith("drawn")]
    programs = [(case, run) for _, cases, run in program_groups(checks, EVERY) for case in cases]
    print("%d calls, %d program inputs" % (len(calls), len(programs)), flush=True)
    missed = 0
    for number, (name, edits) in enumerate(grouped().items()):
        folder = options.folder / ("%02d" % number)
        build(options.cc, folder, name, edits)
        found = first_difference(folder, calls, programs)
        missed += (found is None) == bool(edits)
        shown = "%s: %s" % found if found else "NOT FOUND" if edits else "no difference"
        print("%-58s %s" % (name, shown), flush=True)
    count = len(grouped()) - 1
    print("conformance faults: %d faults, %d wrong outcomes" % (count, missed))
    return 1 if missed else 0


if __name__ == "__main__":
    sys.exit(main())
