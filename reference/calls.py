"""Calls of the committer, the opener and the two planners' entries, with every lent slice before and after.

As in cases.py, what the construction of a call tells is asserted while the call is made.
"""

from collections import namedtuple
from itertools import combinations

import smallwood as S
from drafts import (
    LAST_WORD, Draft, Lent, Source, allowed, ask, border_sizes, case_p, committed, drawn_question, leaf_sizes, lend,
    name, outputs, prefill, random_commitment, reply_buffer, small_drafts, true_values,
)  # fmt: skip
from faults import BAD_SIZES, QUESTION_STAGES, faulty, spoil, turn
from smallwood import Q, Question, Reply, Sizes

# Committing: the sizes, what is lent, and table and tree before and after. Where a size exceeds 65535, or
# 255 for one that a question holds in one byte, the label begins with "wide".
CommitCall = namedtuple(
    "CommitCall",
    "label h mu nu w l eta beta coefficients tails blinds masks nonces salt table tree number table_after tree_after",
)

# Opening: what is lent, and the reply buffer before and after; length is None after a refusal.
OpenCall = namedtuple(
    "OpenCall",
    "label question coefficients tails blinds masks nonces salt table tree buffer number length buffer_after",
)

# The reply's length of a question; length is None after a refusal.
LengthCall = namedtuple("LengthCall", "label question number length")

# The permutations that a check of a reply to the question runs; count is None after a refusal.
PermutationsCall = namedtuple("PermutationsCall", "label question number count")

WORDS = ("coefficients", "tails", "blinds", "masks")
COMMIT_SIZES = ("h", "mu", "nu", "w", "l", "eta", "beta")


def off_by(sequence, step):
    """The slice longer or shorter by some items; an empty one is longer."""
    if step <= 0 and len(sequence) == 0:
        step = 1
    if step < 0:
        return sequence[:step]
    return sequence + (bytes(step) if isinstance(sequence, bytes) else [0] * step)


def with_word(words, at, word):
    changed = list(words)
    changed[at] = word
    return changed


def faulty_question(q, faults, v):
    """A question with these faults; v chooses among variants."""
    return faulty(Draft(q, Reply([], [], [], [])), faults, v)[0]


def blinded_sizes():
    """Blinding rows: none, one, as many as others, 16, with mu + beta up to 64; one or more columns and polynomials."""
    for mu, beta in (
        (1, 0), (1, 1), (2, 1), (2, 2), (3, 2), (16, 16), (17, 16), (47, 16), (48, 16), (60, 4), (63, 1), (64, 0),
    ):  # fmt: skip
        for nu, w in ((1, 1), (1, 3), (2, 1), (3, 2)):
            yield Sizes(4, mu, nu, w, 3, 2, 2, beta)


def mistaken_lengths(s):
    """(label, slice, number of words) that other readings of the layout would take."""
    counts = {
        "coefficients": (s.w * s.mu * s.nu, s.w * s.mu * s.nu + s.beta, s.w * s.rows * s.nu),
        "tails": (s.mu * s.l, (s.mu + 2 * s.beta) * s.l),
        "blinds": (
            s.w * s.nu * s.beta, (s.w * s.nu - 1) * s.beta, (s.nu - 1) * s.beta, s.w * (s.nu - 1) * s.mu,
            s.w * (s.nu - 1), s.w * s.beta, s.beta, 1, 0,
        ),
    }  # fmt: skip
    right = {"coefficients": s.w * s.each, "tails": s.rows * s.l, "blinds": s.w * s.blinds_each}
    for part in counts:
        for count in sorted(set(counts[part]) - {right[part]}):
            yield "%d words of %s, not %d" % (count, part, right[part]), part, count


def with_version(question, version):
    """A question whose version alone is another."""
    return question[:3] + version.to_bytes(2, "little") + question[5:]


def without_salt(question):
    return question[: S.SALT_AT] + question[S.AFTER_SALT :]


def exchanged_salt(question):
    """A question with its salt before its root."""
    root, salt = S.root_and_salt(question)
    return question[: S.HEADER_BYTES] + salt + root + question[S.AFTER_SALT :]


def version_2(question):
    """A question as version 2 had it: without its salt."""
    return with_version(without_salt(question), 2)


def version_1(question):
    """A question as version 1 had it: without its byte 14, too."""
    return with_version(without_salt(question)[:14] + without_salt(question)[15:], 1)


SALT_LENGTHS = (0, 1, 31, 33, 64)  # none of which is a salt's


def salt_of(salt, count):
    """So many bytes, which begin as the salt does."""
    return (salt + bytes(count))[:count]


def other_salts(salt):
    """(label, another salt): one bit of each byte another, then others that a salt may be mistaken for."""
    for at in range(len(salt)):
        yield "byte %d of the salt" % at, spoil(salt, at)
    for label, other in (
        ("salt of zeros", bytes(32)),
        ("salt of bytes 255", b"\xff" * 32),
        ("salt backwards", salt[::-1]),
        ("salt turned by a byte", salt[1:] + salt[:1]),
    ):
        if other != salt:
            yield label, other


# ---- Committing -------------------------------------------------------------------------------------


def commit_label(label, s):
    return "%s [h%d mu%d nu%d w%d l%d eta%d beta%d]" % (label, *s.of_commitment)


def commit_call(label, s, lent, table, tree, number):
    found, table_after, tree_after = S.commit(*s.of_commitment, *lent, table, tree)
    assert found == number, (label, found, number)
    assert found == 0 or (table_after, tree_after) == (table, tree), label
    return CommitCall(commit_label(label, s), *s.of_commitment, *lent, table, tree, found, table_after, tree_after)


def committed_call(label, s):
    c = random_commitment(s)
    return CommitCall(commit_label(label, s), *s.of_commitment, *c.lent, *outputs(s), 0, c.table, c.tree)


def accepted_commits():
    for n in range(60):
        src = Source("commit %d" % n)
        s = src.sizes(6, 6, 30)
        lent = lend(src, s, src.edgy if n % 2 else src.elements)
        yield commit_call("commit: drawn %d" % n, s, lent, *outputs(s), 0)
    for s in (
        Sizes(1, 1, 1, 1, 1, 1, 1),
        Sizes(1, 64, 1, 1, 1, 4, 8),
        Sizes(3, 1, 4, 1, 4, 1, 1),
        Sizes(7, 64, 8, 8, 64, 4, 8),
        Sizes(9, 1, 256, 1, 64, 1, 8),
        Sizes(9, 1, 1, 256, 64, 4, 2),
        Sizes(12, 1, 1, 1, 1, 1, 1),
        Sizes(12, 48, 256, 1, 64, 4, 8, 16),
        Sizes(9, 1, 256, 1, 64, 1, 8, 1),
        Sizes(9, 16, 1, 256, 64, 4, 2, 16),
    ):
        yield committed_call("commit: extreme", s)
    for s in leaf_sizes():
        yield committed_call("commit: leaves of %d values" % s.record, s)


def blinded_commits():
    """Blinding rows at their borders, and each blind with another word."""
    for s in blinded_sizes():
        yield committed_call("commit: blinds", s)
    s = Sizes(3, 3, 3, 2, 2, 1, 1, 2)
    c = random_commitment(s)
    for at in range(len(c.lent.blinds)):
        changed = c.lent._replace(blinds=with_word(c.lent.blinds, at, c.lent.blinds[at] ^ 1))
        call = commit_call("commit: blind %d another" % at, s, changed, *outputs(s), 0)
        differ = [place for place, (a, b) in enumerate(zip(call.table_after, c.table)) if a != b]
        assert {place % s.record for place in differ} == {at % 2, s.mu + at % 2}, at  # one row of each kind
        yield call
    for s in (s, Sizes(3, 3, 1, 2, 2, 1, 1, 2), Sizes(3, 3, 3, 1, 2, 1, 1), Sizes(4, 2, 2, 3, 2, 1, 1, 1)):
        src = Source("lengths of blinds")
        lent, (table, tree) = lend(src, s, src.elements), outputs(s)
        for label, part, count in mistaken_lengths(s):
            changed = lent._replace(**{part: src.elements(count)})
            yield commit_call("commit: %s" % label, s, changed, table, tree, 2)
        for count in sorted({s.leaves * (s.mu + s.eta), s.leaves * (s.mu + 2 * s.beta + s.eta)} - {len(table)}):
            yield commit_call("commit: table of %d words" % count, s, lent, src.elements(count), tree, 2)
        for beta in range(s.mu + 2):
            if beta != s.beta:
                t = s._replace(beta=beta)
                number = 2 if allowed(t) else 1
                yield commit_call("commit: lent for beta %d" % s.beta, t, lent, table, tree, number)


def digests_of(tree):
    return {tree[at : at + 32] for at in range(0, len(tree), 32)}


def salted_commits():
    """The same words and nonces under other salts: the same table, and no digest alike."""
    for s in (Sizes(1, 1, 1, 1, 1, 1, 1), Sizes(3, 2, 2, 1, 2, 2, 1, 1)):
        c = random_commitment(s)
        for label, salt in other_salts(c.lent.salt):
            call = commit_call("commit: " + label, s, c.lent._replace(salt=salt), *outputs(s), 0)
            assert call.table_after == c.table and not digests_of(call.tree_after) & digests_of(c.tree), label
            yield call
        for count in SALT_LENGTHS:
            changed = c.lent._replace(salt=salt_of(c.lent.salt, count))
            yield commit_call("commit: salt of %d bytes" % count, s, changed, *outputs(s), 2)
            wrong = changed._replace(coefficients=with_word(c.lent.coefficients, 0, Q))
            yield commit_call("commit: salt of %d bytes, element" % count, s, wrong, *outputs(s), 2)
            yield commit_call("commit: salt of %d bytes, sizes" % count, s._replace(h=0), changed, *outputs(s), 1)


def commit_calls():
    yield from accepted_commits()
    yield from blinded_commits()
    yield from salted_commits()
    yield from refused_commits(Sizes(2, 2, 1, 2, 2, 2, 1))
    yield from refused_commits(Sizes(3, 2, 2, 3, 2, 2, 1, 1))


def refused_commits(s):
    """Refusals by each test, at sizes with w nu + l = N."""
    src = Source("commit refusals")
    lent, (table, tree) = lend(src, s, src.elements), outputs(s)
    for word in (0, Q - 1):
        filled = lend(src, s, lambda count: [word] * count)
        yield commit_call("commit: all words %d" % word, s, filled, table, tree, 0)
    yield commit_call("commit: table of words over q", s, lent, [LAST_WORD] * len(table), tree, 0)
    for t in dict.fromkeys(t._replace(m=1) for t in border_sizes()):
        if not allowed(t):
            yield commit_call("commit: sizes", t, lent, table, tree, 1)
    for field in COMMIT_SIZES:
        narrow = (65537, 65538) if field in ("nu", "w") else (256, 257, 258, 65536, 65537)
        for number in narrow + (2**31, 2**32 - 1):
            t = s._replace(**{field: number})
            yield commit_call("wide commit: sizes", t, lent, table, tree, 1)
    yield commit_call("wide commit: product 0", s._replace(w=65536, nu=65536), lent, table, tree, 1)
    for mu, beta in ((2**32 - 1, 1), (2**32 - 16, 16), (2**32 - 1, 2**32 - 1), (2**31, 2**31), (2, 2**32 - 2)):
        yield commit_call("wide commit: mu + beta small", s._replace(mu=mu, beta=beta), lent, table, tree, 1)
    yield commit_call("wide commit: all", Sizes(*[2**32 - 1] * 8), lent, table, tree, 1)
    for part in Lent._fields:
        whole = getattr(lent, part)
        for step in sorted({-1, 1, -len(whole), len(whole), 32} - {0}):
            changed = lent._replace(**{part: off_by(whole, step)})
            yield commit_call("commit: %s off by %d" % (part, step), s, changed, table, tree, 2)
    for step in (-1, 1, -len(table), len(table)):
        yield commit_call("commit: table off by %d" % step, s, lent, off_by(table, step), tree, 2)
    for step in (-1, 1, -32, 32, -len(tree), len(tree)):
        yield commit_call("commit: tree off by %d" % step, s, lent, table, off_by(tree, step), 2)
    for part in WORDS:
        whole = getattr(lent, part)
        for at in range(len(whole)):
            for word in (Q, LAST_WORD) if at in (0, len(whole) - 1) else (Q,):
                label = "commit: %s %d is %d" % (part, at, word)
                changed = lent._replace(**{part: with_word(whole, at, word)})
                yield commit_call(label, s, changed, table, tree, 3)
                yield commit_call(label + ", tree off by 1", s, changed, table, off_by(tree, 1), 2)
        changed = lent._replace(**{part: [Q] * max(1, len(whole))})
        yield commit_call("commit: sizes, %s element" % part, s._replace(l=3), changed, table, tree, 1)
        yield commit_call("commit: beta, %s element" % part, s._replace(beta=3), changed, table, tree, 1)
        shorter = lent._replace(**{part: off_by(whole, -1)})
        yield commit_call("commit: sizes, %s length" % part, s._replace(mu=0), shorter, table, tree, 1)


# ---- Opening ----------------------------------------------------------------------------------------

# The opener's tests in their order, each with its number.
OPEN_STAGES = QUESTION_STAGES + (("lent length", 2), ("lent element", 3), ("lent root or salt", 8))


def open_call(label, question, lent, table, tree, buffer, number):
    found, length, after = S.open_reply(question, *lent, table, tree, buffer)
    assert found == number, (label, found, number)
    assert (after, length) == (buffer, None) if found else len(after) == length == len(buffer), label
    return OpenCall(label, question, *lent, table, tree, buffer, found, length, after)


def accepted_open(label, c, q):
    """A call whose reply the check must accept, with the polynomials' values."""
    label, question = "%s [%s]" % (label, name(q.sizes)), S.write_question(q)
    call = open_call(label, question, c.lent, c.table, c.tree, reply_buffer(question), 0)
    values = [0] * (q.sizes.w * q.sizes.m)
    number, _, found = S.check(question, call.buffer_after, values)
    assert (number, found) == (0, true_values(c, q)), label
    return call


def accepted_opens():
    for n in range(80):
        src = Source("open %d" % n)
        s = src.sizes(5, 6, 24)
        c = committed(s, lend(src, s, src.edgy if n % 2 else src.elements))
        q = ask(src, c, challenges=src.edgy(s.eta), points=src.edgy(s.m))
        yield accepted_open("open: drawn %d" % n, c, q)
    for s in (
        Sizes(1, 1, 1, 1, 1, 1, 1),
        Sizes(1, 64, 1, 1, 1, 4, 8),
        Sizes(7, 64, 8, 8, 64, 4, 8),
        Sizes(9, 1, 256, 1, 64, 1, 8),
        Sizes(9, 1, 1, 256, 64, 4, 2),
        Sizes(12, 1, 1, 1, 1, 1, 1),
        Sizes(12, 48, 256, 1, 64, 4, 8, 16),
        Sizes(9, 1, 256, 1, 64, 1, 8, 1),
        Sizes(9, 16, 1, 256, 64, 4, 2, 16),
    ):
        src, c = Source("open " + name(s)), random_commitment(s)
        spread = [s.leaves // s.l * b for b in range(s.l)]
        yield accepted_open("open: extreme, first leaves", c, ask(src, c, indices=list(range(s.l))))
        yield accepted_open("open: extreme, spread leaves", c, ask(src, c, indices=spread))
        yield accepted_open("open: extreme, drawn leaves", c, ask(src, c))
    for s in blinded_sizes():
        c = random_commitment(s)
        yield accepted_open("open: blinds", c, ask(Source("open " + name(s)), c, points=[0, 10]))


def blinded_opens():
    """Other blinds than the committed ones, blinds of other lengths, and questions that name another beta."""
    for s in (Sizes(4, 3, 3, 2, 2, 2, 2, 2), Sizes(3, 2, 1, 3, 2, 1, 1, 2), Sizes(3, 2, 2, 2, 2, 1, 2)):
        src, c = Source("open blinds"), random_commitment(s)
        for more, challenges, number in (("", None, 9), (", challenges 0", [0] * s.eta, 10)):
            q = ask(src, c, challenges=challenges, points=[10, Q - 1][: s.m])
            question = S.write_question(q)
            for at in range(len(c.lent.blinds)):
                lent = c.lent._replace(blinds=with_word(c.lent.blinds, at, c.lent.blinds[at] ^ 1))
                label = "open: blind %d another%s" % (at, more)
                call = open_call(label, question, lent, c.table, c.tree, reply_buffer(question), 0)
                assert S.check(question, call.buffer_after, [0] * (s.w * s.m))[0] == number, label
                yield call
        buffer = reply_buffer(question)
        for label, part, count in mistaken_lengths(s):
            lent = c.lent._replace(**{part: src.elements(count)})
            yield open_call("open: %s" % label, question, lent, c.table, c.tree, buffer, 2)
        for beta in range(20):
            other = S.write_question(q._replace(sizes=s._replace(beta=beta)))
            number = 0 if beta == s.beta else 2 if allowed(s._replace(beta=beta)) else 1
            room = buffer if number else reply_buffer(other)
            yield open_call("open: beta %d for %d" % (beta, s.beta), other, c.lent, c.table, c.tree, room, number)
        for other, number in ((version_1(question), 5), (with_version(question, 1), 5), (question[:14], 6)):
            yield open_call("open: question of %d bytes" % len(other), other, c.lent, c.table, c.tree, buffer, number)
    for beta in range(3):  # one column: which rows are blinding makes no difference
        c = random_commitment(Sizes(3, 4, 1, 2, 2, 1, 1, 2))
        t = c.sizes._replace(mu=6 - beta, beta=beta)
        q = ask(Source("one column"), c._replace(sizes=t), indices=[2, 5], points=[9], challenges=[4])
        yield accepted_open("open: one column", c._replace(sizes=t), q)


def believed_opens(src, c, q):
    """What the opener does not compare with one another: everything but root, salt and question."""
    question = S.write_question(q)
    buffer = reply_buffer(question)

    def call(label, lent=c.lent, table=c.table, tree=c.tree, question=question):
        return open_call("open: " + label, question, lent, table, tree, buffer, 0)

    yield call("other table", table=src.elements(len(c.table)))
    yield call("other tree under the root", tree=src.bytes(len(c.tree) - 32) + c.tree[-32:])
    other = S.write_question(q._replace(root=b"\xff" * 32))
    yield call("tree of bytes 255", tree=b"\xff" * len(c.tree), question=other)
    yield call("nonces of bytes 255", lent=c.lent._replace(nonces=b"\xff" * len(c.lent.nonces)))
    for label, salt in other_salts(c.lent.salt):
        other = S.write_question(q._replace(salt=salt))
        yield call(label + ", lent and asked", lent=c.lent._replace(salt=salt), question=other)
    for part in WORDS:
        drawn = src.elements(len(getattr(c.lent, part)))
        yield call("other %s" % part, lent=c.lent._replace(**{part: drawn}))
    if q.sizes.beta == 0:
        exchanged = q.sizes._replace(w=q.sizes.nu, nu=q.sizes.w)
        yield call("w and nu exchanged", question=S.write_question(q._replace(sizes=exchanged)))


def buffer_opens(c, q):
    """Reply buffers of the reply's length and of others, among them the length that no reply exceeds."""
    question = S.write_question(q)
    exact, bound = len(reply_buffer(question)), S.reply_bound(q.sizes)
    assert exact <= bound
    for size in sorted({0, bound} | {exact + step for step in (-32, -4, -1, 0, 1, 4, 32)}):
        label = "open: buffer of %d bytes for leaves %s [%s]" % (size, q.indices, name(q.sizes))
        yield open_call(label, question, c.lent, c.table, c.tree, prefill(size), 0 if size == exact else 2)


# Bytes, from the end, at which the lent tree's root or the lent salt is another than the question's.
LENT_ROOT_FAULTS = (("tree", -1), ("salt", -1), ("tree", -32), ("salt", -32), ("tree", -7), ("salt", -7))


def faulty_open(c, q, faults, v):
    """A call with these faults; v chooses among variants."""
    number = next(number for stage, number in OPEN_STAGES if stage in faults)
    question, buffer = faulty_question(q, faults, v), reply_buffer(S.write_question(q))
    slices = dict(c.lent._asdict(), table=c.table, tree=c.tree, buffer=buffer)
    if "lent root or salt" in faults:
        part, at = turn(LENT_ROOT_FAULTS, v)
        slices[part] = spoil(slices[part], at)
    if "lent element" in faults:
        part = turn([part for part in WORDS + ("table",) if slices[part]], v)
        slices[part] = with_word(slices[part], turn((0, -1), v // 5), turn((Q, LAST_WORD), v))
    if "lent length" in faults:
        part = turn(list(slices), v)
        slices[part] = off_by(slices[part], turn((-1, 1), v // len(slices)))
    *lent, table, tree, buffer = slices.values()
    label = "open faults: %s; variant %d" % (", ".join(faults), v)
    return open_call(label, question, Lent(*lent), table, tree, buffer, number)


def open_calls():
    yield from accepted_opens()
    yield from blinded_opens()
    yield from salted_opens()
    yield from refused_opens(Sizes(3, 2, 2, 1, 3, 2, 2))
    yield from refused_opens(Sizes(4, 2, 2, 2, 3, 2, 2, 1))


def other_salt_lengths(call, c, question):
    """Salts of other lengths, lent to opening or proving, whose call this is, and in the question."""
    for count in SALT_LENGTHS:
        lent = c.lent._replace(salt=salt_of(c.lent.salt, count))
        yield call("salt of %d bytes" % count, 2, lent=lent)
        yield call("salt of %d bytes, element" % count, 2, lent=lent._replace(tails=with_word(lent.tails, -1, Q)))
        yield call("salt of %d bytes, root" % count, 2, lent=lent, tree=spoil(c.tree, -1))
        cut = question[: S.SALT_AT] + lent.salt + question[S.AFTER_SALT :]
        yield call("question with a salt of %d bytes" % count, 6, question=cut)
        yield call("salt of %d bytes, in the question too" % count, 6, question=cut, lent=lent)


def salted_opens():
    """Questions with another salt, another lent salt, salts of other lengths, questions without one."""
    for s in (Sizes(3, 2, 2, 1, 2, 2, 1), Sizes(4, 3, 2, 2, 3, 1, 2, 1)):
        c = random_commitment(s)
        q = ask(Source("open salts"), c)
        question = S.write_question(q)
        buffer = reply_buffer(question)

        def call(label, number, lent=c.lent, question=question, tree=c.tree):
            return open_call("open: %s [%s]" % (label, name(s)), question, lent, c.table, tree, buffer, number)

        for label, salt in other_salts(c.lent.salt):
            asked, lent = S.write_question(q._replace(salt=salt)), c.lent._replace(salt=salt)
            yield call(label + ", asked", 8, question=asked)
            yield call(label + ", lent", 8, lent=lent)
            yield call(label + ", asked; root", 8, question=asked, tree=spoil(c.tree, -1))
            yield call(label + ", lent; root", 8, lent=lent, tree=spoil(c.tree, -32))
            other = committed(s, lent)  # alike but for the salt
            renewed = q._replace(root=other.tree[-32:], salt=salt)
            yield accepted_open("open: %s, committed" % label, other, renewed)
            yield call(label + ", asked of the other commitment", 8, question=S.write_question(renewed))
        yield call("root for salt", 8, question=S.write_question(q._replace(salt=q.root)))
        yield call("root for salt, lent", 8, lent=c.lent._replace(salt=q.root))
        yield call("salt for root", 8, question=S.write_question(q._replace(root=q.salt)))
        yield call("salt before root", 8, question=exchanged_salt(question))
        lent = c.lent._replace(salt=q.root)
        yield call("salt before root, and so lent", 8, question=exchanged_salt(question), lent=lent)
        yield from other_salt_lengths(call, c, question)
        for version in (0, 1, 2, 4, 256 + 3, 3 << 8):
            yield call("version %d" % version, 5, question=with_version(question, version))
        for older in (version_1, version_2):
            yield call(older.__name__ + " as it was", 5, question=older(question))


def refused_opens(s):
    """Refusals by each test, and what is not tested."""
    src, c = Source("open faults"), random_commitment(s)
    q = ask(src, c)
    question = S.write_question(q)
    buffer = reply_buffer(question)
    yield from believed_opens(src, c, q)
    for m in range(1, 9):
        yield accepted_open("open: m %d" % m, c, ask(src, c, m))
    for word, number in ((Q - 1, 0), (Q, 3), (LAST_WORD, 3)):
        for part in filter(lambda part: getattr(c.lent, part), WORDS):
            for at in (0, -1):
                label = "open: %s %d is %d" % (part, at, word)
                lent = c.lent._replace(**{part: with_word(getattr(c.lent, part), at, word)})
                yield open_call(label, question, lent, c.table, c.tree, buffer, number)
        for at in range(len(c.table)) if word == Q else (0, -1):
            label, table = "open: table %d is %d" % (at, word), with_word(c.table, at, word)
            yield open_call(label, question, c.lent, table, c.tree, buffer, number)
    for at in range(-32, 0):
        tree = spoil(c.tree, at)
        yield open_call("open: root byte %d" % at, question, c.lent, c.table, tree, buffer, 8)
    for indices in ([0, 1, 2], [0, 3, 6], q.indices):
        yield from buffer_opens(c, q._replace(indices=indices))
    for t in (Sizes(1, 1, 1, 1, 1, 1, 1), Sizes(5, 2, 3, 2, 9, 3, 4, 2)):
        yield from buffer_opens(random_commitment(t), ask(src, random_commitment(t)))
    for field in COMMIT_SIZES:  # other sizes than the committed ones
        t = s._replace(**{field: getattr(s, field) + 1})
        other = S.write_question(Question(t, q.root, q.salt, [1] * t.eta, [1] * t.m, list(range(t.l))))
        label = "open: %s more by 1" % field
        yield open_call(label, other, c.lent, c.table, c.tree, reply_buffer(other), 2)
    for cut in range(len(question)):
        label = "open: question of %d bytes" % cut
        yield open_call(label, question[:cut], c.lent, c.table, c.tree, buffer, 6)
    stages = [stage for stage, _ in OPEN_STAGES]
    for stage in stages:
        for v in range(len(BAD_SIZES)):
            yield faulty_open(c, q, [stage], v)
    for v, pair in enumerate(combinations(stages, 2)):
        for step in range(3):
            yield faulty_open(c, q, pair, v + 5 * step)


# ---- Questions for planners: the reply's length, and the check's permutations --------------------------


def good_questions():
    """(label, question, its reply's bytes where one has been made)"""
    for d in small_drafts():
        yield "honest reply", d.parts()[0], len(d.reply())
    for n in range(200):
        src = Source("length %d" % n)
        s = src.sizes(12, 64, 320)
        q = drawn_question(src, s, src.bytes(32), src.bytes(32), challenges=src.edgy(s.eta), points=src.edgy(s.m))
        yield "drawn %d" % n, q, None
    src = Source("lengths")
    for l in range(1, 8):  # every set that can be opened of 8 leaves
        for indices in combinations(range(8), l):
            q = drawn_question(src, Sizes(3, 1, 1, 1, l, 1, 1, l % 2), bytes(32), bytes(32), indices=list(indices))
            yield "leaves %s" % (indices,), q, None
    for h in range(1, 13):
        for l in sorted({min(l, 2**h - 1) for l in (1, 2, 3, 64)}):
            s = Sizes(h, 64 - h, 1, 1, l, 4, 8, h)
            for label, indices in placed_leaves(s):
                q = drawn_question(src, s, b"\xff" * 32, b"\xff" * 32, indices=indices)
                yield "%s leaves" % label, q, None
    for s in filter(allowed, dict.fromkeys(border_sizes())):
        yield "sizes", drawn_question(src, s, src.bytes(32), src.bytes(32)), None


def placed_leaves(s):
    """(label, indices) of leaves with the most nodes above in common, at both ends, and with the fewest."""
    yield "first", list(range(s.l))
    yield "last", list(range(s.leaves - s.l, s.leaves))
    yield "spread", [s.leaves // s.l * b for b in range(s.l)]


def altered_questions():
    """(label, bytes, the number that their construction tells, None where the reference decides): most are refused."""
    for s in dict.fromkeys(border_sizes()):
        label = "sizes [%s]" % name(s)
        if allowed(s):
            yield label + ", header alone", S.write_header(s), 6
        else:
            yield label, S.write_header(s) + bytes(S.question_bytes(s) - S.HEADER_BYTES), 1
            yield label + ", header alone", S.write_header(s), 1
    for d in small_drafts():
        question, shown = d.question(), name(d.sizes)
        for cut in range(len(question)):
            yield "question of %d bytes [%s]" % (cut, shown), question[:cut], 6
        for more in (1, 2, 4, 32, len(question)):
            yield "%d bytes more [%s]" % (more, shown), question + question[:more], 6
        for at in range(len(question)):
            yield "byte %d changed [%s]" % (at, shown), spoil(question, at), None
        for older in (version_1, version_2):
            yield "%s as it was [%s]" % (older.__name__, shown), older(question), 5
        for version in (1, 2, 4):
            yield "version %d [%s]" % (version, shown), with_version(question, version), 5
        yield "without its salt [%s]" % shown, without_salt(question), 6
        yield "salt before root [%s]" % shown, exchanged_salt(question), 0
        yield "without byte 14 [%s]" % shown, question[:14] + question[15:], None
    for d in (case_p(), small_drafts()[4]):
        for count in range(1, len(QUESTION_STAGES) + 1):
            for chosen in combinations(QUESTION_STAGES, count):
                faults, number = [stage for stage, _ in chosen], chosen[0][1]
                for v in range(len(BAD_SIZES) if count == 1 else 4):
                    label = "faults: %s; variant %d [%s]" % (", ".join(faults), v, name(d.sizes))
                    yield label, faulty_question(d.parts()[0], faults, v), number


def length_call(label, question, number=None):
    found, length = S.reply_length(question)
    assert number is None or found == number, (label, found, number)
    assert (length is None) == (found != 0), label
    return LengthCall("length: " + label, question, found, length)


def length_calls():
    for label, q, reply_bytes in good_questions():
        call = length_call("%s [%s]" % (label, name(q.sizes)), S.write_question(q), 0)
        assert reply_bytes is None or call.length == reply_bytes, label
        yield call
    for altered in altered_questions():
        yield length_call(*altered)


def permutations_call(label, question, number=None):
    found, count = S.permutations(question)
    assert number is None or found == number, (label, found, number)
    assert (count is None) == (found != 0), label
    return PermutationsCall("permutations: " + label, question, found, count)


def good_permutations(label, q):
    """A call for a good question. The bound is met where one leaf, of three blocks, is opened, and nowhere else."""
    s = q.sizes
    call = permutations_call("%s [%s]" % (label, name(s)), S.write_question(q), 0)
    bound, met = s.l * (3 + s.h), s.l == 1 and s.record >= 52
    assert call.count == bound if met else call.count < bound, label
    return call


# Numbers of values at which a leaf's string gets a block more, with the blocks before and from there on.
LEAF_BLOCKS = ((18, 1, 2), (52, 2, 3))


def permutations_calls():
    for label, q, _ in good_questions():
        yield good_permutations(label, q)
    src = Source("permutations")
    for s in leaf_sizes():
        q = drawn_question(src, s, src.bytes(32), src.bytes(32))
        yield good_permutations("leaf of %d values" % s.record, q)
    for values, *blocks in LEAF_BLOCKS:
        for t, each in zip((values - 1, values), blocks):
            for h, l, beta in ((1, 1, 0), (1, 1, 5), (6, 63, 0), (7, 2, 3), (12, 1, 6), (12, 64, 5)):
                s = Sizes(h, t - 4 - beta, 1, 1, l, 4, 1, beta)
                for label, indices in placed_leaves(s):
                    q = drawn_question(src, s, src.bytes(32), src.bytes(32), indices=indices)
                    call = good_permutations("%s leaves of %d values" % (label, t), q)
                    assert call.count == l * each + len(S.missing_nodes(h, indices)) + l - 1, call.label
                    yield call
    for altered in altered_questions():
        yield permutations_call(*altered)
