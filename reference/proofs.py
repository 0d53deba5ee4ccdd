"""Calls of the prover and of the check of a proof, with every lent slice before and after.

As in cases.py, what the construction of a call tells is asserted while the call is made.
"""

from collections import namedtuple
from hashlib import shake_256
from itertools import combinations, permutations, product

import smallwood as S
from calls import (
    COMMIT_SIZES, LENT_ROOT_FAULTS, SALT_LENGTHS, WORDS, blinded_sizes, exchanged_salt, mistaken_lengths, off_by,
    other_salt_lengths, other_salts, salt_of, version_1, version_2, with_version, with_word, without_salt,
)  # fmt: skip
from drafts import (
    LAST_WORD, Lent, ProofDraft, Source, add, allowed, answers_of, border_sizes, case_p_commitment, committed, ends,
    leading_zeros, lend, name, prefill, proof_buffer, proof_question, random_commitment, small_proofs, true_values,
    vanishing,
)  # fmt: skip
from faults import (
    BAD_KAPPAS, BAD_SIZES, PROOF_QUESTION_STAGES, PROOF_STAGES, faulty_proof, faulty_proof_question, spoil, turn,
)  # fmt: skip
from smallwood import Q, Question, Sizes

# Proving: what is lent, and the proof's buffer before and after; length is None after a refusal.
ProveCall = namedtuple(
    "ProveCall",
    "label question kappa limit coefficients tails blinds masks nonces salt table tree buffer number length"
    " buffer_after",
)

# Checking a proof. The value buffer is given in bytes; the entry on words is meant too whenever 4 divides its length.
ProofCase = namedtuple("ProofCase", "label question kappa proof buffer number after")

EXTREMES = (
    Sizes(1, 64, 1, 1, 1, 4, 8),
    Sizes(3, 1, 4, 1, 4, 1, 1),  # w nu + l = N
    Sizes(7, 64, 8, 8, 64, 4, 8),  # and with all 64 leaves of 128
    Sizes(9, 1, 256, 1, 64, 1, 8),
    Sizes(9, 1, 1, 256, 64, 4, 2),
    Sizes(12, 1, 1, 1, 1, 1, 1),
    Sizes(12, 48, 256, 1, 64, 4, 8, 16),
    Sizes(9, 1, 256, 1, 64, 1, 8, 1),
)


def header_or_none(question):
    return S.read_header(question)[1] if len(question) >= S.HEADER_BYTES else None


def proof_case(label, question, kappa, proof, number=None, values=None, size=None):
    """A case; number and values are what its construction tells, None where the reference decides."""
    s = header_or_none(question)
    before = prefill((4 * s.w * s.m if s else 8) if size is None else size)
    found, after = S.check_proof_c(question, kappa, proof, before)
    assert number is None or found == number, (label, found, number)
    assert values is None or after == S.to_bytes(values), label
    assert found == 0 or after == before, label
    label = "proof: %s, kappa %d%s" % (label, kappa, " [%s]" % name(s) if s else "")
    return ProofCase(label, question, kappa, proof, before, found, after)


def made_case(label, d, kappa, counter, number=None):
    """The proof that has the answers as they stand and this counter."""
    values = d.values() if number == 0 else None
    return proof_case("%s, counter %d" % (label, counter), d.question(), kappa, d.proof(counter), number, values)


def drawn_draft(src, n, max_h=5, max_mu=6, max_width=24):
    """A proof to be, to a commitment of drawn sizes."""
    s = src.sizes(max_h, max_mu, max_width)
    c = committed(s, lend(src, s, src.edgy if n % 2 else src.elements))
    return ProofDraft(c, proof_question(src, c, points=src.edgy(s.m)))


def extreme_drafts():
    for s in EXTREMES:
        c = random_commitment(s)
        yield ProofDraft(c, proof_question(Source("extreme proof " + name(s)), c))


def draw_drafts():
    """Strings of every length at which a draw's counter can end in its block, and every number of drawn words."""
    sizes = [Sizes(6, 1, width - 1, 1, 1, 2, 1) for width in range(2, 36)]
    before = {(1 + S.proof_question_bytes(s) + S.answer_bytes(s)) % 136 for s in sizes}
    assert before == set(range(0, 136, 4))
    sizes += [Sizes(7, 1, 1, 1, l, 1, 1) for l in range(1, 65)]
    for s in sizes:
        c = random_commitment(s)
        yield ProofDraft(c, proof_question(Source("draw " + name(s)), c))


# ---- Checking: accepted proofs and their counters ---------------------------------------------------


def proven_case(label, d, kappa):
    """The prover's proof, which must be accepted with the polynomials' values."""
    c, p = d.commitment, d.question_parts
    number, length, after = S.prove(d.question(), kappa, LAST_WORD, *c.lent, c.table, c.tree, proof_buffer(d.sizes))
    assert number == 0, label
    q = Question(p.sizes, p.root, p.salt, [], p.points, [])
    return proof_case("proven, " + label, d.question(), kappa, after[:length], 0, true_values(c, q))


def honest_proofs():
    for n in range(100):
        yield proven_case("drawn %d" % n, drawn_draft(Source("proof %d" % n), n), n % 11)
    for d in small_proofs():
        for kappa in (0, 1, 7, 8, 9):
            yield proven_case("small", d, kappa)
    for n, d in enumerate(extreme_drafts()):
        yield proven_case("extreme", d, 0)
        yield proven_case("extreme", d, 3 + n)
    for d in small_proofs()[:3]:
        yield proven_case("most bits", d, 16)
    for d in draw_drafts():
        yield proven_case("drawn string", d, 1)
    d = small_proofs()[4]
    for m in range(1, 9):
        c = d.commitment
        yield proven_case("m %d" % m, ProofDraft(c, proof_question(Source("points %d" % m), c, m)), 4)
        repeated = proof_question(Source("repeated"), c, m, [0, 7, 0, Q - 1, 7, 7, 1, 0][:m])
        yield proven_case("m %d, repeated points" % m, ProofDraft(c, repeated), 2)


def kappa_proofs():
    """Draws with exactly so many leading zero bits: accepted up to that kappa, a 12 from the next on."""
    for d in small_proofs()[:3]:
        for zeros in list(range(11)) + [15, 16]:
            if zeros > 10 and d is not small_proofs()[0]:
                continue
            counter = next(d.counters(lambda draw: leading_zeros(draw) == zeros))
            for kappa in sorted({0, 1, 7, 8, 9, 16, zeros - 1, zeros, zeros + 1} & set(range(17))):
                label = "%d zero bits" % zeros
                yield made_case(label, d, kappa, counter, 0 if kappa <= zeros else 12)
    d = small_proofs()[4]
    for kappa in BAD_KAPPAS:
        question, proof = d.question(), d.proof(d.least(16))
        yield proof_case("kappa too great", question, kappa, proof, 1)
        yield proof_case("kappa too great, and a length", question[:-1], kappa, proof, 1)
        yield proof_case("kappa too great, and a mark", b"swq" + question[3:], kappa, proof, 5)
        yield proof_case("kappa too great, and 14 bytes", question[:14], kappa, proof, 6)
        yield proof_case("kappa too great, all else empty", question, kappa, b"", 1, None, 0)


def counter_proofs():
    """Counters that are not the least, with the leaves that they draw; then without these leaves."""
    for d in small_proofs():
        kappa = 3
        good, bad = d.qualifying(kappa), d.others(kappa)
        for n in range(6):
            yield made_case("qualifying %d" % n, d, kappa, next(good), 0)
            yield made_case("not qualifying %d" % n, d, kappa, next(bad), 12)
        for counter in (1, 255, 256, 65535, 65536, 2**24, 2**31, 2**32 - 2, LAST_WORD):
            yield made_case("any counter", d, 0, counter, 0)
            number = 0 if leading_zeros(d.draw(counter)) >= 1 else 12
            yield made_case("any counter", d, 1, counter, number)
        counter = d.least(kappa)
        proof = d.proof(counter)
        for other in (counter + 1, counter + 2, counter - 1, counter ^ 256, counter ^ 2**24, LAST_WORD):
            other %= 2**32
            for kappa in (0, 3):
                changed = S.write_counter(other) + proof[4:]
                yield proof_case("counter %d for %d" % (other, counter), d.question(), kappa, changed)
        yield proof_case("counter in the other order", d.question(), 0, proof[3::-1] + proof[4:])


def rank_proofs():
    """Every sequence of ranks that words can have over few leaves, every set of two of 8 leaves."""
    for s in (Sizes(1, 2, 1, 1, 1, 1, 1), Sizes(2, 1, 1, 1, 3, 2, 1), Sizes(2, 2, 2, 1, 2, 1, 2)):
        c = random_commitment(s)
        d = ProofDraft(c, proof_question(Source("ranks " + name(s)), c))
        for ranks in product(*(range(s.leaves - j) for j in range(s.l))):

            def has_ranks(draw):
                words = S.to_long_words(draw[32:])
                return all(word % (s.leaves - j) == rank for j, (word, rank) in enumerate(zip(words, ranks)))

            counter = next(d.counters(has_ranks))
            yield made_case("ranks %s" % (ranks,), d, 0, counter, 0)
            yield made_case("ranks %s" % (ranks,), d, 2, counter)
    s = Sizes(3, 2, 2, 1, 2, 1, 1)
    c = random_commitment(s)
    d = ProofDraft(c, proof_question(Source("sets"), c))
    for indices in combinations(range(8), 2):
        counter = next(n for n in range(2**32) if d.indices(n) == list(indices))
        yield made_case("leaves %s" % (indices,), d, 0, counter, 0)


# ---- Checking: forged and mistaken proofs -----------------------------------------------------------


def ground_proofs():
    """Answers that are right at one leaf only: the counter decides, and false values may be accepted."""
    for s in (Sizes(1, 3, 1, 1, 1, 2, 2), Sizes(2, 2, 1, 2, 1, 2, 1), Sizes(3, 2, 3, 1, 1, 1, 2)):
        c = random_commitment(s)
        d = ProofDraft(c, proof_question(Source("ground " + name(s)), c))
        for index in range(s.leaves):
            for part, number in (("batchings", 9), ("answers", 10)):
                e = d.copy()
                shift = vanishing([index])
                if part == "answers":
                    shift = [S.evaluate(shift, x) for x in S.grid_points(s)]
                getattr(e, part)[-1] = add(getattr(e, part)[-1], shift)
                assert part == "batchings" or e.values() != d.values()
                for kappa in (0, 2):
                    label = "%s right at leaf %d only" % (part, index)
                    good, bad = e.qualifying(kappa), e.qualifying(kappa)
                    hit = next(n for n in good if e.indices(n) == [index])
                    miss = next(n for n in bad if e.indices(n) != [index])
                    yield made_case(label, e, kappa, hit, 0)
                    yield made_case(label, e, kappa, miss, number)
                yield made_case(label, e, 4, next(n for n in e.others(4) if e.indices(n) == [index]), 12)


def altered_answers(d):
    """(label, proof to be, number) with one word of the answers another, the leaves drawn after it."""
    s = d.sizes
    for k in ends(s.eta):
        for c in ends(s.width):
            e = d.copy()
            e.batchings[k] = add(e.batchings[k], [0] * c + [3])
            yield "R %d coefficient %d" % (k, c), e, 9
    for p in ends(s.m):
        for c in sorted({0, s.columns - 1, s.columns, s.width - 1}):
            e = d.copy()
            e.answers[p][c] = (e.answers[p][c] + 5) % Q
            yield "answer %d word %d" % (p, c), e, 10


def answer_proofs():
    for d in small_proofs():
        for label, e, number in altered_answers(d):
            for kappa in (0, 2):
                counter = e.least(kappa)
                seen = number == 10 or "coefficient 0" in label or any(e.indices(counter))
                yield made_case("altered " + label, e, kappa, counter, number if seen else 0)
            yield made_case("altered " + label, e, 3, next(e.others(3)), 12)
        for part, number in (("batchings", 9), ("answers", 10 if d.sizes.rows > 1 else 0)):
            e = d.copy()
            getattr(e, part).reverse()
            if getattr(e, part) != getattr(d, part):
                yield made_case("%s in reverse" % part, e, 2, e.least(2), number)


def wrong_draws(d):
    """(label, string hashed for a counter, indices by 32 + 8 l bytes): draws that are not the papers'."""
    p, s = d.question_parts, d.sizes
    question, answers = d.question(), S.write_answers(d.batchings, d.answers)
    batchings = answers[: 4 * s.width * s.eta]
    number, right = S.write_counter, lambda draw: S.choose(s.leaves, S.to_long_words(draw[32:]))

    def string(first=b"\x03", asked=question, answered=answers, counted=number):
        return lambda counter: first + asked + answered + counted(counter)

    def big_endian(draw):
        return S.choose(s.leaves, [int.from_bytes(draw[at : at + 8], "big") for at in range(32, len(draw), 8)])

    def among_all(draw):
        chosen = []
        for word in S.to_long_words(draw[32:]):
            index = word % s.leaves
            while index in chosen:
                index = (index + 1) % s.leaves
            chosen.append(index)
        return sorted(chosen)

    def modulo_n(draw):
        unused = list(range(s.leaves))
        return sorted(unused.pop(min(word % s.leaves, len(unused) - 1)) for word in S.to_long_words(draw[32:]))

    yield "first byte 2", string(first=b"\x02"), right
    yield "no first byte", string(first=b""), right
    yield "no counter", string(counted=lambda counter: b""), right
    yield "counter of 8 bytes", string(counted=lambda counter: number(counter) + bytes(4)), right
    yield "counter in the other order", string(counted=lambda counter: number(counter)[::-1]), right
    yield "no answers", string(answered=b""), right
    yield "no batching answers", string(answered=answers[len(batchings) :]), right
    yield "no evaluation answers", string(answered=batchings), right
    yield "evaluation answers first", string(answered=answers[len(batchings) :] + batchings), right
    header, points = question[: S.HEADER_BYTES], question[S.AFTER_SALT :]
    yield "no points", string(asked=question[: S.AFTER_SALT]), right
    yield "no header", string(asked=question[S.HEADER_BYTES :]), right
    yield "no root", string(asked=header + p.salt + points), right
    yield "no salt", string(asked=header + p.root + points), right
    yield "salt before the root", string(asked=header + p.salt + p.root + points), right
    yield "salt after the first byte", string(asked=p.salt + header + p.root + points), right
    yield "salt after the points", string(asked=header + p.root + points + p.salt), right
    yield "salt before the counter", string(asked=header + p.root + points, answered=answers + p.salt), right
    yield "31 bytes of the salt", string(asked=header + p.root + p.salt[:31] + points), right
    yield "salt twice", string(asked=header + p.root + p.salt + p.salt + points), right
    yield "the conversation's question", string(asked=S.write_question(d.opened(0).parts()[0])), right
    yield "words from byte 0", string(), lambda draw: S.choose(s.leaves, S.to_long_words(draw[: 8 * s.l]))
    yield "words from byte 8", string(), lambda draw: S.choose(s.leaves, S.to_long_words(draw[8 : 8 + 8 * s.l]))
    yield "words of 4 bytes", string(), lambda draw: S.choose(s.leaves, S.to_words(draw[32 : 32 + 4 * s.l]))
    yield "words with the top byte first", string(), big_endian
    yield "ranks among all indices", string(), among_all
    yield "modulo N", string(), modulo_n
    yield "words backwards", string(), lambda draw: S.choose(s.leaves, S.to_long_words(draw[32:])[::-1])


def mistaken_proofs():
    """Provers with another draw, or with other challenges."""
    for d in small_proofs()[3:7]:
        c, p, s = d.commitment, d.question_parts, d.sizes
        for label, string, choose in wrong_draws(d):
            kappa = 2
            for counter in range(40):
                draw = shake_256(string(counter)).digest(32 + 8 * s.l)
                indices = choose(draw)
                if leading_zeros(draw) >= kappa and indices != d.indices(counter):
                    break
            leaves, nodes = S.opened_at(s, indices, c.lent.nonces, c.table, c.tree)
            proof = S.write_counter(counter) + S.write_reply(S.Reply(d.batchings, d.answers, leaves, nodes))
            case = proof_case("mistaken: " + label, d.question(), kappa, proof)
            assert case.number in (7, 8, 12), case
            yield case
        for label, challenges in wrong_challenges(p):
            e = ProofDraft(c, p, answers_of(c, s, challenges, p.points))
            yield made_case("mistaken: " + label, e, 2, e.least(2), 9)
        counter = d.least(2)
        e = d.opened(counter)
        unused = list(range(s.leaves))
        order = [unused.pop(word % len(unused)) for word in S.to_long_words(d.draw(counter)[32:])]
        leaves = [e.leaves[e.indices.index(i)] for i in order]
        if leaves != e.leaves:
            e.leaves = leaves
            proof = S.write_counter(counter) + e.reply()
            yield proof_case("mistaken: leaves as they are drawn", d.question(), 2, proof, 8)


def wrong_challenges(p):
    """(label, challenges) that are not those of the papers' draw."""
    eta, header = p.sizes.eta, S.write_header(p.sizes)
    head = header + p.root + p.salt

    def words(string, first, count, size):
        data = shake_256(string).digest(64)
        return [int.from_bytes(data[first + size * k : first + size * (k + 1)], "little") % Q for k in range(count)]

    yield "challenges after first byte 3", words(b"\x03" + head, 0, eta, 8)
    yield "challenges with points", words(b"\x02" + head + S.to_bytes(p.points), 0, eta, 8)
    yield "challenges without header", words(b"\x02" + p.root + p.salt, 0, eta, 8)
    yield "challenges without root", words(b"\x02" + header + p.salt, 0, eta, 8)
    yield "challenges without salt", words(b"\x02" + header + p.root, 0, eta, 8)
    yield "challenges without root and salt", words(b"\x02" + header, 0, eta, 8)
    yield "challenges with salt before the root", words(b"\x02" + header + p.salt + p.root, 0, eta, 8)
    yield "challenges with salt after the first byte", words(b"\x02" + p.salt + header + p.root, 0, eta, 8)
    yield "challenges with 31 bytes of the salt", words(b"\x02" + head[:-1], 0, eta, 8)
    yield "challenges of 4 bytes", words(b"\x02" + head, 0, eta, 4)
    yield "challenges from the second word on", words(b"\x02" + head, 8, eta, 8)
    yield "one challenge plus 1", [(x + (k == eta - 1)) % Q for k, x in enumerate(S.draw_challenges(p))]


# ---- Checking: bytes, elements, lengths -------------------------------------------------------------


def proof_records(s, length):
    """(name, first byte, byte after the last) of what a proof of this length is made of."""
    answer, value = 4 * s.width, 4 * s.rows
    batchings, answers = 4 + s.eta * answer, 4 + S.answer_bytes(s)
    record = 4 * s.record + 32
    yield "counter", 0, 4
    yield "first R", 4, 4 + answer
    yield "last R", batchings - answer, batchings
    yield "first columns", batchings, batchings + 4 * s.columns
    yield "first tails", batchings + 4 * s.columns, batchings + answer
    yield "last columns", answers - answer, answers - 4 * s.l
    yield "last tails", answers - 4 * s.l, answers
    for label, start in (("first", answers), ("last", answers + record * (s.l - 1))):
        yield label + " row values", start, start + value
        yield label + " mask values", start + value, start + 4 * s.record
        yield label + " nonce", start + 4 * s.record, start + record
    nodes = answers + record * s.l
    yield "first node", nodes, nodes + 32
    yield "last node", length - 32, length


def byte_proofs():
    """One byte changed in each kind of record."""
    for d in small_proofs():
        for kappa in (0, 4):
            proof = d.proof(d.least(kappa))
            for label, start, end in proof_records(d.sizes, len(proof)):
                for at in sorted({start, start + 1, end - 4, end - 1}):
                    changed, number = spoil(proof, at), None
                    if label.split()[-1] in ("nonce", "node"):
                        number = 8
                    elif label.split()[-1] == "values":
                        number = 8 if S.elements(S.to_words(changed[at - at % 4 : at - at % 4 + 4])) else 3
                    yield proof_case("%s, byte %d" % (label, at), d.question(), kappa, changed, number)
    d = small_proofs()[0]
    question, proof = d.question(), d.proof(d.least(1))
    for at in range(len(question)):
        yield proof_case("byte %d of the question" % at, spoil(question, at), 1, proof)
    for at in range(len(proof)):
        yield proof_case("byte %d" % at, question, 1, spoil(proof, at))
    src = Source("proof bytes")
    for n in range(300):
        d, kappa = src.pick(small_proofs()), src.pick((0, 0, 1, 3))
        question, proof = bytearray(d.question()), bytearray(d.proof(d.least(kappa)))
        for _ in range(src.between(1, 2)):
            part = src.pick((question, proof, proof))
            part[src.below(len(part))] = src.pick((0, 1, 255, src.below(256)))
        yield proof_case("drawn bytes %d" % n, bytes(question), kappa, bytes(proof))


def zero_draft():
    """Every element of its proofs is 0."""
    s = Sizes(3, 2, 2, 1, 2, 2, 2)
    src = Source("zeros")
    c = committed(s, lend(src, s, lambda count: [0] * count))
    return ProofDraft(c, proof_question(src, c, points=[0, 3]))


def element_proofs():
    """Words at q and near it: hashed in the draw as they stand, whatever they are."""
    for d in small_proofs()[:6] + [zero_draft()]:
        s = d.sizes
        for part in ("batchings", "answers"):
            for at in ends(len(getattr(d, part))):
                for x in sorted({0, s.columns - 1, s.columns, s.width - 1}):
                    for word in (Q - 1, Q, LAST_WORD):
                        e = d.copy()
                        getattr(e, part)[at][x] = word
                        label, number = "%s %d word %d is %d" % (part, at, x, word), None if word < Q else 3
                        yield made_case(label, e, 0, 0, number)
                        yield made_case(label, e, 2, e.least(2), number)
                        if word == Q:
                            yield made_case(label, e, 2, next(e.others(2)), number)
        for b in ends(s.l):
            for at in sorted({0, s.mu - 1, s.mu, s.rows - 1, s.rows, s.record - 1}):
                for word in (Q - 1, Q, LAST_WORD):
                    for kappa, counter in ((2, d.least(2)), (2, next(d.others(2)))):
                        e = d.opened(counter)
                        e.leaves[b][0][at] = word
                        proof = S.write_counter(counter) + e.reply()
                        label = "leaf %d value %d is %d" % (b, at, word)
                        yield proof_case(label, d.question(), kappa, proof, None if word < Q else 3)
        for at in range(S.AFTER_SALT, S.AFTER_SALT + 4 * s.m, 4):
            for word in (Q, LAST_WORD):
                question = d.question()[:at] + S.to_bytes([word]) + d.question()[at + 4 :]
                yield proof_case("point at %d is %d" % (at, word), question, 0, d.proof(0), 3)
    c = small_proofs()[4].commitment
    for points in ([Q - 1] * 2, [0] * 2, [1, Q - 1]):
        yield proven_case("points %s" % points, ProofDraft(c, proof_question(None, c, points=points)), 1)
    e = small_proofs()[4].copy()
    for part in (e.batchings, e.answers):
        for words in part:
            words[:] = [LAST_WORD] * len(words)
    yield made_case("answers of bytes 255", e, 0, LAST_WORD, 3)
    yield made_case("answers of bytes 255", e, 9, 0, 3)


def length_proofs():
    for n, d in enumerate(small_proofs()):
        question, s = d.question(), d.sizes
        proof, full = d.proof(d.least(1)), len(question)
        places = [0, 4, 4 + 4 * s.width * s.eta, 4 + S.answer_bytes(s), len(proof) - 32, len(proof)]
        near = {place + step for place in places for step in (-32, -4, -2, -1, 0, 1, 2, 3, 4, 32)}
        for length in range(2 * len(proof)) if n == 0 else sorted(near - set(range(-32, 0))):
            cut = (proof * 2)[:length]
            number = 0 if length == len(proof) else 7
            yield proof_case("%d bytes of %d" % (length, len(proof)), question, 1, cut, number)
        for length in range(2 * full):
            number = 0 if length == full else 6
            yield proof_case("question of %d bytes" % length, (question * 2)[:length], 1, proof, number)
        asked = d.opened(0).question()
        yield proof_case("a conversation's question", asked, 1, proof, 6)
        yield proof_case("a conversation's question and reply", asked, 1, d.opened(0).reply(), 6)
        yield proof_case("the reply without a counter", question, 0, d.opened(0).reply())
        yield proof_case("exchanged", proof, 0, question, 5)
        full = 4 * s.w * s.m
        for older in (version_1, version_2):
            yield proof_case(older.__name__ + " as it was", older(question), 1, proof, 5)
        for version in (1, 2, 4):
            yield proof_case("version %d" % version, with_version(question, version), 1, proof, 5)
        yield proof_case("without byte 14", question[:14] + question[15:], 1, proof)
        for size in sorted({0, 1, full - 4, full - 1, full, full + 1, full + 4, 2 * full, 4 * s.w, 4 * s.m}):
            label, number = "%d of %d value bytes" % (size, full), 2 if size != full else 0
            yield proof_case(label, question, 1, proof, number, None, size)
    yield proof_case("both empty", b"", 0, b"", 6)


def salt_proofs():
    """Another salt in the question: it is drawn and hashed with, and gives another root."""
    for n, d in enumerate(small_proofs()):
        p, proof = d.question_parts, d.proof(d.least(1))
        for label, salt in list(other_salts(p.salt))[:: 1 if n == 4 else 9]:
            asked = p._replace(salt=salt)
            yield proof_case(label, S.write_proof_question(asked), 1, proof)
            e = ProofDraft(d.commitment, asked)  # answers and leaves as drawn with the other salt
            yield made_case(label + ", drawn with it", e, 1, e.least(1), 8)
            c = committed(d.commitment.sizes, d.commitment.lent._replace(salt=salt))
            e = ProofDraft(c, p._replace(root=c.tree[-32:], salt=salt))
            yield made_case(label + ", committed with it", e, 1, e.least(1), 0)
            e = ProofDraft(c, p._replace(root=c.tree[-32:]))
            yield made_case(label + ", committed with it, not asked for", e, 1, e.least(1), 8)
        question = d.question()
        yield proof_case("salt before root", exchanged_salt(question), 1, proof)
        yield proof_case("without its salt", without_salt(question), 1, proof, 6)
        root, salt = S.root_and_salt(question)
        for count in SALT_LENGTHS:
            cut = question[: S.SALT_AT] + salt_of(salt, count) + question[S.AFTER_SALT :]
            yield proof_case("a salt of %d bytes" % count, cut, 1, proof, 6)
        e = ProofDraft(d.commitment, p._replace(root=salt, salt=root))
        yield made_case("salt before root, drawn so", e, 1, e.least(1), 8)


def size_proofs():
    for s in dict.fromkeys(border_sizes()):
        header = S.write_header(s)
        if allowed(s):
            question = header + bytes(S.proof_question_bytes(s) - S.HEADER_BYTES)
            answers = S.answer_bytes(s)
            yield proof_case("sizes, header alone", header, 0, b"", 6)
            yield proof_case("sizes, no room", question, 0, bytes(3 + answers), 7)
            yield proof_case("sizes, zeros", question, 0, bytes(4 + answers))
            yield proof_case("sizes, kappa", question, 17, bytes(4 + answers), 1)
        else:
            body = bytes(S.proof_question_bytes(s) - S.HEADER_BYTES)
            yield proof_case("sizes refused, header alone", header, 0, b"", 1)
            yield proof_case("sizes refused", header + body, 16, bytes(100), 1)


def fault_proofs():
    """One fault, or two: the test that comes first decides."""
    stages = [stage for stage, _ in PROOF_STAGES]

    def case(d, kappa, faults, v):
        number = next(number for stage, number in PROOF_STAGES if stage in faults)
        question, kappa, proof, size = faulty_proof(d, kappa, faults, v)
        label = "faults: %s; variant %d" % (", ".join(faults), v)
        return proof_case(label, question, kappa, proof, number, None, size)

    for n, d in enumerate(small_proofs()):
        for stage in stages:
            for v in range(12 if n in (0, 5) else 3):
                yield case(d, 1 + v % 3, [stage], v)
        for v, pair in enumerate(combinations(stages, 2)):
            for step in range(3 if n in (0, 5) else 1):
                yield case(d, 1 + v % 3, pair, v + n + 5 * step)
    src = Source("proof faults")
    for n in range(150):
        faults = [stage for stage in stages if src.below(3) == 0] or ["counter"]
        yield case(src.pick(small_proofs()), src.between(1, 4), faults, src.below(84))


PROOF_GROUPS = (
    honest_proofs,
    kappa_proofs,
    counter_proofs,
    rank_proofs,
    ground_proofs,
    answer_proofs,
    mistaken_proofs,
    byte_proofs,
    element_proofs,
    length_proofs,
    salt_proofs,
    size_proofs,
    fault_proofs,
)


# ---- Proving ----------------------------------------------------------------------------------------


def prove_call(label, question, kappa, limit, lent, table, tree, buffer, number):
    found, length, after = S.prove(question, kappa, limit, *lent, table, tree, buffer)
    assert found == number, (label, found, number)
    assert len(after) == len(buffer), label
    assert (after, length) == (buffer, None) if found else after[length:] == buffer[length:], label
    label = "prove: %s, kappa %d, limit %d" % (label, kappa, limit)
    return ProveCall(label, question, kappa, limit, *lent, table, tree, buffer, found, length, after)


def prove_draft(label, d, kappa, limit, number, buffer=None):
    c = d.commitment
    before = proof_buffer(d.sizes) if buffer is None else buffer
    label = "%s [%s]" % (label, name(d.sizes))
    return prove_call(label, d.question(), kappa, limit, c.lent, c.table, c.tree, before, number)


def accepted_prove(label, d, kappa, limit=LAST_WORD):
    """A call whose proof is the one with the least counter, and must be accepted."""
    call = prove_draft(label, d, kappa, limit, 0)
    counter = d.least(kappa)
    proof = call.buffer_after[: call.length]
    assert proof == d.proof(counter), label
    values = true_values(d.commitment, d.opened(counter).parts()[0])
    assert S.check_proof(d.question(), kappa, proof, [0] * len(values)) == (0, values), label
    return call


def accepted_proves():
    for n in range(60):
        yield accepted_prove("drawn %d" % n, drawn_draft(Source("prove %d" % n), n), n % 10)
    for d in small_proofs():
        for kappa in (0, 1, 7, 8, 9):
            yield accepted_prove("small", d, kappa)
    for n, d in enumerate(extreme_drafts()):
        yield accepted_prove("extreme", d, 2 * n)
    for d in small_proofs()[1:3]:
        yield accepted_prove("most bits", d, 16)
    for n, d in enumerate(draw_drafts()):
        yield accepted_prove("drawn string", d, n % 7)
    c = small_proofs()[4].commitment
    for m in range(1, 9):
        points = [0, 7, 0, Q - 1, 7, 7, 1, 0][:m]
        yield accepted_prove("m %d" % m, ProofDraft(c, proof_question(None, c, m, points)), m)
    for word in (0, Q - 1):
        s, src = Sizes(3, 3, 2, 1, 2, 2, 3), Source("words")
        c = committed(s, lend(src, s, lambda count: [word] * count))
        yield accepted_prove("all words %d" % word, ProofDraft(c, proof_question(src, c, points=[word] * 3)), 5)


def limit_proves():
    """Limits at the least counter and around it, and kappa from end to end."""
    for d in small_proofs()[:5]:
        for kappa in (0, 1, 2, 5, 8, 10):
            least = d.least(kappa)
            for limit in sorted({0, 1, least - 1, least, least + 1, least + 2, 2 * least} - {-1}):
                yield prove_draft("limit for counter %d" % least, d, kappa, limit, 0 if limit > least else 11)
            yield prove_draft("greatest limit", d, kappa, LAST_WORD, 0)
        least = d.least(16)
        for limit in (0, 1, 20, min(least, 20000)):
            yield prove_draft("few counters", d, 16, limit, 0 if limit > least else 11)
        for kappa in BAD_KAPPAS:
            for limit in (0, 1, LAST_WORD):
                yield prove_draft("kappa too great", d, kappa, limit, 1)


def believed_proves(d):
    """What the prover does not compare with one another: everything but root, salt and question."""
    src, c = Source("believed proofs"), d.commitment
    question, buffer = d.question(), proof_buffer(d.sizes)

    def call(label, lent=c.lent, table=c.table, tree=c.tree, question=question):
        return prove_call(label, question, 3, 10**6, lent, table, tree, buffer, 0)

    yield call("other table", table=src.elements(len(c.table)))
    yield call("other tree under the root", tree=src.bytes(len(c.tree) - 32) + c.tree[-32:])
    other = S.write_proof_question(d.question_parts._replace(root=b"\xff" * 32))
    yield call("tree of bytes 255", tree=b"\xff" * len(c.tree), question=other)
    yield call("nonces of bytes 255", lent=c.lent._replace(nonces=b"\xff" * len(c.lent.nonces)))
    for label, salt in other_salts(c.lent.salt):
        other = S.write_proof_question(d.question_parts._replace(salt=salt))
        yield call(label + ", lent and asked", lent=c.lent._replace(salt=salt), question=other)
    for part in WORDS:
        drawn = src.elements(len(getattr(c.lent, part)))
        yield call("other %s" % part, lent=c.lent._replace(**{part: drawn}))
    if d.sizes.beta == 0:
        exchanged = d.sizes._replace(w=d.sizes.nu, nu=d.sizes.w)
        yield call("w and nu exchanged", question=S.write_proof_question(d.question_parts._replace(sizes=exchanged)))


def blinded_proves():
    """Blinding rows at their borders, other blinds than the committed ones, and questions that name another beta."""
    for n, s in enumerate(blinded_sizes()):
        c = random_commitment(s)
        yield accepted_prove("blinds", ProofDraft(c, proof_question(Source("prove " + name(s)), c)), n % 6)
    for s in (Sizes(4, 3, 3, 2, 2, 2, 2, 2), Sizes(3, 2, 1, 3, 2, 1, 1, 2), Sizes(3, 2, 2, 2, 2, 1, 2)):
        c = random_commitment(s)
        d = ProofDraft(c, proof_question(Source("prove blinds"), c))
        question, buffer = d.question(), proof_buffer(s)
        for at in range(len(c.lent.blinds)):
            lent = c.lent._replace(blinds=with_word(c.lent.blinds, at, c.lent.blinds[at] ^ 1))
            call = prove_call("blind %d another" % at, question, 2, LAST_WORD, lent, c.table, c.tree, buffer, 0)
            proof = call.buffer_after[: call.length]
            assert S.check_proof(question, 2, proof, [0] * (s.w * s.m))[0] == 9, at
            yield call
        for label, part, count in mistaken_lengths(s):
            lent = c.lent._replace(**{part: [1] * count})
            yield prove_call(label, question, 2, LAST_WORD, lent, c.table, c.tree, buffer, 2)
        for beta in range(20):
            t = s._replace(beta=beta)
            other = S.write_proof_question(d.question_parts._replace(sizes=t))
            number = 0 if beta == s.beta else 2 if allowed(t) else 1
            room = buffer if number == 1 else proof_buffer(t)
            label = "beta %d for %d" % (beta, s.beta)
            yield prove_call(label, other, 2, LAST_WORD, c.lent, c.table, c.tree, room, number)
        for other in (version_1(question), version_2(question), *(with_version(question, v) for v in (0, 1, 2, 4))):
            label = "version %d, %d bytes" % (other[3], len(other))
            yield prove_call(label, other, 2, LAST_WORD, c.lent, c.table, c.tree, buffer, 5)


def salted_proves(d):
    """Questions with another salt, another lent salt, salts of other lengths, questions without one."""
    c, p, question, buffer = d.commitment, d.question_parts, d.question(), proof_buffer(d.sizes)

    def call(label, number, lent=c.lent, question=question, tree=c.tree, limit=LAST_WORD):
        return prove_call(label, question, 2, limit, lent, c.table, tree, buffer, number)

    for label, salt in other_salts(c.lent.salt):
        asked, lent = S.write_proof_question(p._replace(salt=salt)), c.lent._replace(salt=salt)
        yield call(label + ", asked", 8, question=asked)
        yield call(label + ", lent", 8, lent=lent, limit=0)
        yield call(label + ", asked; root", 8, question=asked, tree=spoil(c.tree, -1))
        yield call(label + ", lent; root", 8, lent=lent, tree=spoil(c.tree, -32))
        other = committed(d.sizes, lent)  # alike but for the salt
        e = ProofDraft(other, p._replace(root=other.tree[-32:], salt=salt))
        yield accepted_prove(label + ", committed", e, 2)
        yield call(label + ", asked of the other commitment", 8, question=e.question())
    yield call("root for salt", 8, question=S.write_proof_question(p._replace(salt=p.root)))
    yield call("salt for root", 8, question=S.write_proof_question(p._replace(root=p.salt)))
    yield call("salt before root", 8, question=exchanged_salt(question))
    yield call("salt before root, and so lent", 8, question=exchanged_salt(question), lent=c.lent._replace(salt=p.root))
    yield from other_salt_lengths(call, c, question)


def buffer_proves(d):
    """Buffers of the bound, and of other lengths that a caller may think of."""
    bound, exact, reply = S.proof_bound(d.sizes), len(d.proof(0)), S.reply_bound(d.sizes)
    others = {0, 4, exact, exact - 4, reply, reply - 4} | {bound + step for step in (-32, -1, 0, 1, 4, 32)}
    for size in sorted(others):
        number = 0 if size == bound else 2
        yield prove_draft("buffer of %d bytes for %d" % (size, bound), d, 0, 1, number, prefill(size))
        yield prove_draft("no counter, buffer of %d bytes" % size, d, 0, 0, number or 11, prefill(size))


PROVE_STAGES = PROOF_QUESTION_STAGES + (
    ("lent length", 2), ("lent element", 3), ("lent root or salt", 8), ("no counter", 11)
)  # fmt: skip


def faulty_prove(d, kappa, faults, v):
    """A call with these faults; v chooses among variants."""
    number = next(number for stage, number in PROVE_STAGES if stage in faults)
    c, least = d.commitment, d.least(kappa)
    question, asked = faulty_proof_question(d.question(), kappa, faults, v)
    slices = dict(c.lent._asdict(), table=c.table, tree=c.tree, buffer=proof_buffer(d.sizes))
    if "lent root or salt" in faults:
        part, at = turn(LENT_ROOT_FAULTS, v)
        slices[part] = spoil(slices[part], at)
    if "lent element" in faults:
        part = turn([part for part in WORDS + ("table",) if slices[part]], v)
        slices[part] = with_word(slices[part], turn((0, -1), v // 5), turn((Q, LAST_WORD), v))
    if "lent length" in faults:
        part = turn(list(slices), v)
        slices[part] = off_by(slices[part], turn((-1, 1), v // len(slices)))
    *lent, table, tree, buffer = slices.values()
    limit = turn((0, least), v) if "no counter" in faults else least + 1 + v
    label = "faults: %s; variant %d" % (", ".join(faults), v)
    return prove_call(label, question, asked, limit, Lent(*lent), table, tree, buffer, number)


def lent_proves(d):
    """Elements and the root, one by one; questions of other sizes and lengths."""
    c, question, buffer = d.commitment, d.question(), proof_buffer(d.sizes)
    s = d.sizes
    for word, number in ((Q - 1, 0), (Q, 3), (LAST_WORD, 3)):
        for part in filter(lambda part: getattr(c.lent, part), WORDS):
            for at in (0, -1):
                lent = c.lent._replace(**{part: with_word(getattr(c.lent, part), at, word)})
                label = "%s %d is %d" % (part, at, word)
                yield prove_call(label, question, 0, 1, lent, c.table, c.tree, buffer, number)
        for at in range(len(c.table)) if word == Q else (0, -1):
            table = with_word(c.table, at, word)
            yield prove_call("table %d is %d" % (at, word), question, 0, 1, c.lent, table, c.tree, buffer, number)
    for at in range(-32, 0):
        tree = spoil(c.tree, at)
        yield prove_call("root byte %d" % at, question, 0, 0, c.lent, c.table, tree, buffer, 8)
    for field in COMMIT_SIZES:  # other sizes than the committed ones
        t = s._replace(**{field: getattr(s, field) + 1})
        other = S.write_proof_question(d.question_parts._replace(sizes=t))
        label = "%s more by 1" % field
        yield prove_call(label, other, 0, 1, c.lent, c.table, c.tree, proof_buffer(t), 2)
    for cut in range(len(question)):
        yield prove_call("question of %d bytes" % cut, question[:cut], 0, 1, c.lent, c.table, c.tree, buffer, 6)
    for other in (question + bytes(1), question + bytes(4), d.opened(0).question()):
        yield prove_call("question of %d bytes" % len(other), other, 0, 1, c.lent, c.table, c.tree, buffer, 6)


def prove_calls():
    yield from accepted_proves()
    yield from limit_proves()
    yield from blinded_proves()
    stages = [stage for stage, _ in PROVE_STAGES]
    for s in (Sizes(3, 2, 2, 1, 3, 2, 2), Sizes(4, 2, 2, 2, 3, 2, 2, 1)):
        c = random_commitment(s)
        d = ProofDraft(c, proof_question(Source("prove faults"), c))
        yield from believed_proves(d)
        yield from salted_proves(d)
        yield from lent_proves(d)
        yield from buffer_proves(d)
        for stage in stages:
            for v in range(len(BAD_SIZES)):
                yield faulty_prove(d, 4, [stage], v)
        for v, pair in enumerate(combinations(stages, 2)):
            for step in range(3):
                yield faulty_prove(d, 4, pair, v + 5 * step)
    for e in (small_proofs()[0], small_proofs()[6]):
        yield from buffer_proves(e)
    for e in (ProofDraft(case_p_commitment(), small_proofs()[0].question_parts), small_proofs()[5]):
        for v, pair in enumerate(permutations(stages, 2)):
            yield faulty_prove(e, 3, pair, v)
