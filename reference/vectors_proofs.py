"""Test vectors of proving and of the check of a proof."""

from functools import lru_cache

import smallwood as S
from calls import WORDS, exchanged_salt, off_by, version_1, version_2, with_version, with_word, without_salt
from drafts import (
    LAST_WORD, Lent, ProofDraft, Source, add, case_p_commitment, leading_zeros, proof_buffer, proof_question,
    random_commitment, true_values, vanishing,
)  # fmt: skip
from faults import BAD_SIZES, PROOF_STAGES, faulty_proof, spoil
from proofs import PROVE_STAGES, faulty_prove, proof_case, prove_call, wrong_challenges
from smallwood import MAX_KAPPA, Q, Sizes
from vectors import Vector, near_pairs

PROVED = Sizes(3, 2, 2, 1, 2, 2, 2, 1)  # the commitment in which most faults are made
LONG_DRAW = Sizes(5, 1, 1, 1, 14, 1, 1)  # 32 + 8 l bytes are drawn: 144, more than a block
COUNTER_ACROSS = Sizes(3, 1, 3, 1, 1, 2, 1)  # 132 bytes before the counter, which fills the block


def draft(s, points=None):
    c = random_commitment(s)
    return ProofDraft(c, proof_question(Source("vectors of proofs"), c, points=points))


def case_p_draft():
    c = case_p_commitment()
    return ProofDraft(c, proof_question(None, c, points=[6]))


@lru_cache(maxsize=None)
def proved():
    """The proof in which most faults are made."""
    return draft(PROVED)


# ---- Proving ----------------------------------------------------------------------------------------


def prove_vector(flags, comment, sizes, call):
    """The call as a vector; of a proof's buffer the bytes after the proof are not among the outputs."""
    names = ("question", "kappa", "limit", *WORDS, "table", "nonces", "salt", "tree")
    inputs = {name: getattr(call, name) for name in names}
    inputs["proof_length"] = len(call.buffer)
    outputs = {"proof": call.buffer_after[: call.length], "length": call.length}
    return Vector(sizes, comment, flags, inputs, call.number, outputs)


def proving(flags, comment, d, kappa, limit, number=0, **changes):
    """A call with what was committed, but for the changes."""
    c = d.commitment
    slices = dict(c.lent._asdict(), table=c.table, tree=c.tree, question=d.question(), buffer=proof_buffer(d.sizes))
    slices.update(changes)
    lent = Lent(*(slices[name] for name in Lent._fields))
    rest = slices["table"], slices["tree"], slices["buffer"]
    call = prove_call(comment, slices["question"], kappa, limit, lent, *rest, number)
    assert number or changes or call.buffer_after[: call.length] == d.proof(d.least(kappa)), comment
    return prove_vector(flags, comment, d.sizes, call)


def proved_vectors():
    yield proving(("honest",), "case P of the handbook, kappa 4: counter 10", case_p_draft(), 4, LAST_WORD)
    d = proved()
    for kappa in (0, 1, 7, 8, 9):
        yield proving(("honest", "counter"), "kappa %d" % kappa, d, kappa, LAST_WORD)
    yield proving(("honest", "counter", "boundary"), "kappa 16", d, MAX_KAPPA, 2**22)
    least = d.least(5)
    yield proving(("counter", "boundary"), "the limit one above the least counter", d, 5, least + 1)
    yield proving(("counter", "boundary"), "the limit is the least counter", d, 5, least, 11)
    yield proving(("counter",), "no counter is tried", d, 0, 0, 11)
    yield proving(("counter",), "few counters for 16 bits", d, MAX_KAPPA, 20, 11)
    yield proving(("counter", "sizes"), "kappa 17", d, MAX_KAPPA + 1, LAST_WORD, 1)
    yield proving(("counter", "sizes"), "kappa 2^32 - 1", d, LAST_WORD, LAST_WORD, 1)
    yield proving(("honest",), "points 0 and q - 1", draft(PROVED, [0, Q - 1]), 2, LAST_WORD)
    yield proving(("honest",), "the same point twice", draft(PROVED, [5, 5]), 2, LAST_WORD)
    yield proving(("honest",), "a draw of more than a block", draft(LONG_DRAW), 2, LAST_WORD)
    yield proving(("honest",), "no blinding rows, 4 repetitions", draft(Sizes(3, 2, 1, 2, 2, 4, 1)), 2, LAST_WORD)
    yield proving(("honest", "boundary"), "the counter fills a block", draft(COUNTER_ACROSS), 2, LAST_WORD)
    table = Source("other table").elements(len(d.commitment.table))
    yield proving(("unread",), "another table: its words are the row values", d, 2, LAST_WORD, table=table)


def refused_proves():
    d = proved()
    c, question, buffer = d.commitment, d.question(), proof_buffer(PROVED)
    for older in (version_1, version_2):
        comment = "a question of version %s as it was" % older.__name__[-1]
        yield proving(("mark",), comment, d, 2, LAST_WORD, 5, question=older(question))
    changed = question[:14] + b"\3" + question[15:]
    yield proving(("sizes",), "beta = 3 in the header", d, 2, LAST_WORD, 1, question=changed)
    for comment, changed in (
        ("14 bytes of the question", question[:14]),
        ("the question too short by 1", question[:-1]),
        ("a conversation's question", d.opened(0).question()),
        ("a question without its salt", without_salt(question)),
    ):
        yield proving(("length",), comment, d, 2, LAST_WORD, 6, question=changed)
    changed = S.write_proof_question(d.question_parts._replace(points=[Q, 1]))
    yield proving(("element",), "the first point is q", d, 2, LAST_WORD, 3, question=changed)
    lent = dict(c.lent._asdict(), table=c.table, tree=c.tree)
    for part, whole in lent.items():
        yield proving(("length",), "%s too short by 1" % part, d, 2, LAST_WORD, 2, **{part: off_by(whole, -1)})
    yield proving(("length", "salt"), "a salt of 64 bytes", d, 2, LAST_WORD, 2, salt=2 * c.lent.salt)
    for size, comment in (
        (len(d.proof(d.least(2))), "a buffer of the proof's own length"),
        (len(buffer) - 4, "a buffer of the reply's bound"),
        (len(buffer) + 1, "a buffer too long by 1"),
    ):
        yield proving(("length",), comment, d, 2, LAST_WORD, 2, buffer=bytes(size))
    for n, part in enumerate(WORDS + ("table",)):
        word, shown = ((Q, "q"), (LAST_WORD, "2^32 - 1"))[n % 2]
        changed = with_word(lent[part], 0, word)
        yield proving(("element",), "the first of the %s is %s" % (part, shown), d, 2, LAST_WORD, 3, **{part: changed})
    for part, at in (("tree", -32), ("tree", -16), ("tree", -1), ("salt", 0), ("salt", 16), ("salt", 31)):
        comment, changed = "byte %d of the lent %s another" % (at % len(lent[part]), part), spoil(lent[part], at)
        yield proving(("tree", "salt"), comment, d, 2, LAST_WORD, 8, **{part: changed})
    yield proving(("salt",), "salt before root in the question", d, 2, LAST_WORD, 8, question=exchanged_salt(question))
    salt = spoil(lent["salt"], 0)
    yield proving(("order", "salt"), "two faults: lent salt, no counter", d, 2, 0, 8, salt=salt)


def ordered_proves():
    d = proved()
    short, tails = proof_buffer(PROVED)[1:], with_word(d.commitment.lent.tails, 0, Q)
    yield proving(("order",), "two faults: buffer, lent element", d, 2, LAST_WORD, 2, buffer=short, tails=tails)
    yield proving(("order",), "two faults: buffer, no counter", d, 2, 0, 2, buffer=short)
    for v, pair in enumerate(near_pairs(PROVE_STAGES)):
        faults = [stage for stage, _ in pair]
        comment = "two faults: %s, %s" % tuple(faults)
        yield prove_vector(("order",), comment, PROVED, faulty_prove(proved(), 4, faults, v))


def prove_vectors():
    yield from proved_vectors()
    yield from refused_proves()
    yield from ordered_proves()


# ---- Checking a proof -------------------------------------------------------------------------------


def proof_vector(flags, comment, sizes, question, kappa, proof, number, values=None, room=None):
    """A case in the group of these sizes; the room for values is theirs where none is given."""
    room = 4 * sizes.w * sizes.m if room is None else room
    case = proof_case(comment, question, kappa, proof, number, values, room)
    inputs = {"question": question, "kappa": kappa, "proof": proof, "values_length": len(case.buffer)}
    return Vector(sizes, comment, flags, inputs, case.number, {"values": case.after})


def made_vector(flags, comment, d, kappa, counter, number=0):
    """The proof that has the answers as they stand and this counter."""
    values = d.values() if number == 0 else None
    return proof_vector(flags, comment, d.sizes, d.question(), kappa, d.proof(counter), number, values)


def honest_proof(flags, comment, d, kappa):
    counter = d.least(kappa)
    values = true_values(d.commitment, d.opened(counter).parts()[0])
    return proof_vector(("honest",) + flags, comment, d.sizes, d.question(), kappa, d.proof(counter), 0, values)


def counter_vectors():
    """Any counter that qualifies is taken, and none that does not."""
    yield honest_proof((), "case P of the handbook, kappa 4: counter 10", case_p_draft(), 4)
    d = proved()
    for kappa in (0, 1, 8, 9):
        yield honest_proof(("counter",), "kappa %d" % kappa, d, kappa)
    for zeros in (0, 3, 7, 8):
        counter = next(d.counters(lambda draw: leading_zeros(draw) == zeros))
        comment = "a draw with %d zero bits, kappa %d"
        yield made_vector(("counter",), comment % (zeros, zeros), d, zeros, counter)
        yield made_vector(("counter",), comment % (zeros, zeros + 1), d, zeros + 1, counter, 12)
    for counter in (1, 256, 65536, LAST_WORD):
        yield made_vector(("counter",), "counter %d, kappa 0" % counter, d, 0, counter)
    good = d.qualifying(3)
    next(good)
    yield made_vector(("counter",), "the second counter that qualifies, kappa 3", d, 3, next(good))
    proof = d.proof(d.least(8))
    for kappa in (MAX_KAPPA + 1, 256, LAST_WORD):
        yield proof_vector(("counter", "sizes"), "kappa %d" % kappa, PROVED, d.question(), kappa, proof, 1)


def other_proofs():
    yield honest_proof(("boundary",), "points 0 and q - 1", draft(PROVED, [0, Q - 1]), 2)
    yield honest_proof((), "the same point twice", draft(PROVED, [5, 5]), 2)
    yield honest_proof((), "a draw of more than a block", draft(LONG_DRAW), 2)
    yield honest_proof((), "no blinding rows, 4 repetitions", draft(Sizes(3, 2, 1, 2, 2, 4, 1)), 2)
    s = COUNTER_ACROSS
    assert (1 + S.proof_question_bytes(s) + S.answer_bytes(s)) % S.RATE_BYTES == S.RATE_BYTES - S.COUNTER_BYTES
    yield honest_proof(("boundary",), "the counter fills a block", draft(s), 2)
    yield honest_proof((), "three leaves of four", draft(Sizes(2, 1, 1, 1, 3, 1, 1)), 2)


def forged_proofs():
    """Answers that are altered, with the leaves drawn after them."""
    for comment, part, at, number in (
        ("batching answer 0", "batchings", 0, 9),
        ("batching answer 1", "batchings", 1, 9),
        ("evaluation answer 0", "answers", 0, 10),
        ("evaluation answer 1", "answers", 1, 10),
    ):
        e = proved().copy()
        getattr(e, part)[at] = add(getattr(e, part)[at], [3])
        flags = ("batching",) if number == 9 else ("evaluation",)
        yield made_vector(flags, "%s altered, its leaves drawn" % comment, e, 2, e.least(2), number)
        comment += " altered, and the counter does not qualify"
        yield made_vector(flags + ("order",), comment, e, 2, next(e.others(2)), 12)
    d = draft(Sizes(2, 2, 1, 2, 1, 2, 1))
    e, shift = d.copy(), [S.evaluate(vanishing([2]), x) for x in S.grid_points(d.sizes)]
    e.answers[0] = add(e.answers[0], shift)
    hit = next(n for n in e.qualifying(2) if e.indices(n) == [2])
    miss = next(n for n in e.qualifying(2) if e.indices(n) != [2])
    assert e.values() != d.values()
    yield made_vector(("forged",), "answer right at leaf 2 only, which is drawn: false values", e, 2, hit)
    yield made_vector(("evaluation",), "answer right at leaf 2 only, which is not drawn", e, 2, miss, 10)
    p = proved().question_parts
    for label, challenges in wrong_challenges(p):
        if label in WRONG_CHALLENGES:
            parts = S.answers_to(PROVED, challenges, p.points, *proved().commitment.lent[:4])
            e = ProofDraft(proved().commitment, p, parts)
            yield made_vector(("batching",), label, e, 2, e.least(2), 9)


WRONG_CHALLENGES = (
    "challenges after first byte 3", "challenges with points", "challenges without salt", "challenges of 4 bytes",
)  # fmt: skip


def damaged_proofs():
    """Leaves and nodes, salt and root, bytes of the answers."""
    d = proved()
    counter, question = d.least(2), d.question()

    def vector(flags, comment, change, number):
        e = d.opened(counter)
        change(e)
        proof = S.write_counter(counter) + e.reply()
        return proof_vector(flags, comment, PROVED, question, 2, proof, number)

    def nonce(e):
        e.leaves[-1] = e.leaves[-1][0], spoil(e.leaves[-1][1], 31)

    yield vector(("tree",), "row value 0 of the first leaf", lambda e: e.change_value(0, 0, 1), 8)
    yield vector(("tree",), "mask value 1 of the last leaf", lambda e: e.change_value(1, PROVED.rows + 1, 1), 8)
    yield vector(("tree",), "nonce of the last leaf", nonce, 8)
    yield vector(("tree",), "last node", lambda e: e.nodes.__setitem__(-1, spoil(e.nodes[-1], 0)), 8)
    yield vector(("tree",), "nodes in reverse", lambda e: e.nodes.reverse(), 8)
    yield vector(("tree",), "leaves in reverse", lambda e: e.leaves.reverse(), 8)
    yield vector(("element",), "row value 0 of the first leaf is q", lambda e: e.leaves[0][0].__setitem__(0, Q), 3)
    yield vector(("tree", "length"), "the last node left out", lambda e: e.nodes.pop(), 7)
    for part, word in (("batchings", Q), ("answers", LAST_WORD)):
        e = d.copy()
        getattr(e, part)[-1][-1] = word
        comment = "the last of the %s is %d, its leaves drawn" % (part, word)
        yield made_vector(("element",), comment, e, 2, e.least(2), 3)
        comment += ", and the counter does not qualify"
        yield made_vector(("element", "order"), comment, e, 2, next(e.others(2)), 3)
    for part in ("root", "salt"):
        asked = d.question_parts._replace(**{part: spoil(getattr(d.question_parts, part), 0)})
        e = ProofDraft(d.commitment, asked)
        yield made_vector(("tree", "salt"), "byte 0 of the %s another, drawn with it" % part, e, 2, e.least(2), 8)


def refused_proofs():
    d = proved()
    question, proof, room = d.question(), d.proof(d.least(2)), S.COUNTER_BYTES + S.answer_bytes(PROVED)

    def vector(flags, comment, number, question=question, proof=proof, size=None):
        return proof_vector(flags, comment, PROVED, question, 2, proof, number, None, size)

    for at, part in BAD_SIZES[::5]:
        changed = question[:at] + part + question[at + len(part) :]
        yield vector(("sizes",), "byte %d of the header on: %s" % (at, part.hex(" ")), 1, changed)
    for version in (1, 2, 4):
        yield vector(("mark",), "version %d" % version, 5, with_version(question, version))
    for comment, changed in (
        ("14 bytes of the question", question[:14]),
        ("the question too long by 1", question + b"\0"),
        ("a conversation's question", d.opened(0).question()),
    ):
        yield vector(("length",), comment, 6, changed)
    yield vector(("element",), "the last point is q", 3, question[:-4] + S.to_bytes([Q]))
    for length in (0, 4, room - 1, room, len(proof) - 1, len(proof) + 1, len(proof) + 32):
        yield vector(("length",), "a proof of %d bytes, not %d" % (length, len(proof)), 7, proof=(proof * 2)[:length])
    for size in (0, 4 * PROVED.w * PROVED.m + 4):
        yield vector(("length",), "room for %d bytes of values" % size, 2, size=size)


def ordered_proofs():
    for v, pair in enumerate(near_pairs(PROOF_STAGES)):
        faults = [stage for stage, _ in pair]
        question, kappa, proof, room = faulty_proof(proved(), 2, faults, v)
        comment = "two faults: %s, %s" % tuple(faults)
        yield proof_vector(("order",), comment, PROVED, question, kappa, proof, pair[0][1], None, room)


def check_proof_vectors():
    for group in (counter_vectors, other_proofs, forged_proofs, damaged_proofs, refused_proofs, ordered_proofs):
        yield from group()
