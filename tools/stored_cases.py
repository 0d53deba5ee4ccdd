#!/usr/bin/env python3
"""Stored inputs and outputs of the programs `verdict`, `verdict_empty` and `cases`, made by the second implementation.

    tools/stored_cases.py            writes them
    tools/stored_cases.py --check    makes them anew, compares them with what is stored and names what differs

Nothing here runs the proved program: every output is what reference/smallwood.py says. Each case also has the
verdict that its construction gives, and the two must agree.

Verdicts and values do not depend on the salt: all but the cases that are about it print what they printed before there
was one, by the SHA-256 of that output. Case P's salt is 32 zero bytes, as its nonces are zero bytes; the papers name
neither.
"""

import sys
from hashlib import sha256
from pathlib import Path

ROOT = Path(__file__).resolve().parent.parent
sys.dont_write_bytecode = True
sys.path.insert(0, str(ROOT / "reference"))

import smallwood as S  # noqa: E402
from arguments import only_check  # noqa: E402
from calls import exchanged_salt, version_1, version_2, with_version, without_salt  # noqa: E402
from drafts import Lent, Source, ask, case_p, committed, honest, lend, name, product, simulated, vanishing  # noqa: E402
from faults import levels_with, wrong_batchings, wrong_lines, wrong_strings  # noqa: E402
from smallwood import Q, Question, Sizes  # noqa: E402

SEVERAL = Sizes(5, 3, 2, 4, 6, 2, 3)
BLINDED = Sizes(5, 3, 3, 3, 6, 2, 3, 2)
FULL = Sizes(3, 1, 4, 1, 4, 1, 1)  # w nu + l = N
# git show 9f124fc:crates/cases/stdout | sha256sum
BEFORE_SALT = "1ed4c44f4e3b7b01f9db211c0c4b88aeae696fee6af3805bee5469cbbecfb711"


def whole(draft):
    """What the program reads: the question, then the reply."""
    return draft.question() + draft.reply()


def header_with(s):
    """A header with these sizes, and zeros after it."""
    return S.write_header(s) + bytes(100)


def spoiled(data, at):
    """The bytes with one of them changed."""
    return data[:at] + bytes([data[at] ^ 1]) + data[at + 1 :]


def salt_by(label):
    """A salt from a stream of its own: what else is drawn stays what it is without a salt."""
    return Source("stored salt " + label).bytes(S.SALT_BYTES)


def commitment(s):
    src = Source("stored " + name(s))
    return src, committed(s, lend(src, s, src.elements, salt_by(name(s))))


def drawn(s, **given):
    """An honest draft of these sizes; what is not given is drawn."""
    src, c = commitment(s)
    return honest(c, ask(src, c, **given))


def altered(draft, change):
    """A copy of the draft, changed."""
    e = draft.copy()
    change(e)
    return whole(e)


# ---- Accepted ---------------------------------------------------------------------------------------


def columns_and_value():
    """The polynomial 1 + 2X + 3X^2 + 4X^3 in two columns, at 10 and at 0."""
    s = Sizes(2, 2, 2, 1, 1, 1, 2)
    src = Source("stored columns")
    lent = Lent([1, 2, 3, 4], src.elements(2), [], src.elements(3), src.bytes(128), salt_by("columns"))
    c = committed(s, lent)
    return honest(c, Question(s, c.tree[-32:], lent.salt, [7], [10, 0], [2]))


def columns_with_a_blind():
    """The polynomial 1 + 2X + 3X^2 + 4X^3 + 5X^4 in two columns with the blind 7, at 10 and at 0."""
    s = Sizes(2, 2, 2, 1, 1, 1, 2, 1)
    src = Source("stored columns with a blind")
    lent = Lent([1, 2, 3, 4, 5], src.elements(3), [7], src.elements(3), src.bytes(128), salt_by("columns"))
    c = committed(s, lent)
    d = honest(c, Question(s, c.tree[-32:], lent.salt, [7], [10, 0], [2]))
    assert d.answers[0][:2] == [721, 536]
    return d


def largest_elements():
    """Every word is q - 1."""
    s = Sizes(3, 2, 2, 1, 2, 1, 2)
    src = Source("stored largest elements")
    c = committed(s, lend(src, s, lambda count: [Q - 1] * count, b"\xff" * 32))
    return honest(c, ask(src, c, challenges=[Q - 1], points=[Q - 1, 1]))


def false_value():
    """T shifted by a multiple of the product of X - e_i over the opened leaves: accepted, with a false value."""
    d = drawn(Sizes(3, 2, 2, 1, 2, 1, 1))
    return d.shift_answer(0, product([5], vanishing(d.indices)))


def accepted():
    yield "case_p", case_p()
    yield "columns_and_value", columns_and_value()
    yield "largest_elements", largest_elements()
    yield "every_place_used", drawn(FULL)
    yield "several_polynomials", drawn(SEVERAL)
    yield "first_and_last_leaf", drawn(Sizes(4, 2, 1, 3, 2, 4, 2), indices=[0, 15])
    yield "index_last", drawn(Sizes(2, 1, 1, 1, 2, 1, 1), indices=[2, 3])
    yield "equal_points", drawn(Sizes(4, 3, 2, 2, 3, 2, 3), points=[9, 9, 0])
    yield "false_value", false_value()
    largest = Sizes(12, 64, 1, 256, 64, 4, 8)
    yield "largest_sizes", simulated(Source("stored largest sizes"), largest, salt_by("largest sizes"))
    yield "columns_with_a_blind", columns_with_a_blind()
    yield "blinded_polynomials", drawn(BLINDED)
    yield "most_blinding_rows", drawn(Sizes(4, 48, 2, 3, 4, 1, 2, 16))
    yield "blinding_rows_without_blinds", drawn(Sizes(3, 2, 1, 3, 2, 2, 1, 2))


# ---- Refused ----------------------------------------------------------------------------------------


def set_entry(part, at, word):
    """A change: one word of a part of the draft."""

    def change(e):
        getattr(e, part)[at] = word

    return change


def question_refused():
    d = drawn(SEVERAL)
    question, data = d.question(), whole(d)
    yield "fourteen_bytes", 6, question[:14]
    yield "wrong_mark", 5, spoiled(data, 2)
    yield "wrong_version", 5, with_version(data, 4)
    yield "version_in_other_order", 5, with_version(data, 3 << 8)
    yield "version_1", 5, with_version(data, 1)
    yield "version_1_without_byte_14", 5, version_1(data)
    yield "one_leaf_too_many", 1, header_with(FULL._replace(l=5))
    yield "depth_13", 1, header_with(SEVERAL._replace(h=13))
    yield "columns_257", 1, header_with(Sizes(12, 1, 257, 1, 1, 1, 1))
    yield "columns_65536", 1, header_with(Sizes(12, 1, 256, 256, 1, 1, 1))
    yield "nine_points", 1, header_with(SEVERAL._replace(m=9))
    yield "more_blinding_rows_than_others", 1, header_with(SEVERAL._replace(beta=4))
    yield "blinding_rows_17", 1, header_with(SEVERAL._replace(mu=20, beta=17))
    yield "rows_65", 1, header_with(SEVERAL._replace(mu=49, beta=16))
    yield "header_alone", 6, question[:15]
    yield "question_cut", 6, question[:-1]
    yield "challenge_q", 3, altered(d, set_entry("challenges", -1, Q))
    yield "point_q", 3, altered(d, set_entry("points", 0, Q))
    pair = drawn(Sizes(2, 1, 1, 1, 2, 1, 1), indices=[2, 3])
    yield "index_twice", 4, altered(pair, set_entry("indices", 0, 3))
    yield "index_falling", 4, altered(pair, set_entry("indices", 1, 1))
    yield "index_n", 4, altered(pair, set_entry("indices", 1, 4))


def reply_refused():
    question, reply = case_p().question(), case_p().reply()
    yield "reply_87", 7, question + reply[:87]
    yield "reply_89", 7, question + reply + b"\0"
    yield "no_reply", 7, question
    siblings = drawn(Sizes(3, 1, 1, 2, 2, 1, 1), indices=[0, 1])
    listed = S.digest(S.leaf_string(siblings.salt, 1, *siblings.leaves[1]))
    yield "computable_sibling_listed", 7, altered(siblings, lambda e: e.nodes.insert(0, listed))
    d = drawn(SEVERAL)
    last, repetition, point = d.sizes.l - 1, d.sizes.eta - 1, d.sizes.m - 1
    yield "batching_word_q", 3, altered(d, lambda e: e.batchings[0].__setitem__(0, Q))
    yield "answer_word_q", 3, altered(d, lambda e: e.answers[-1].__setitem__(-1, Q))
    yield "leaf_word_over_q", 3, altered(d, lambda e: e.leaves[-1][0].__setitem__(-1, 2**32 - 1))
    yield "other_root", 8, spoiled(whole(d), 15 + 31)
    yield "other_nonce", 8, altered(d, set_entry("leaves", 2, (d.leaves[2][0], spoiled(d.leaves[2][1], 0))))
    yield "other_node", 8, altered(d, set_entry("nodes", -1, spoiled(d.nodes[-1], 0)))
    yield "no_first_bytes", 8, whole(hashed_otherwise("leaf and node without first byte"))
    yield "batching_at_last_leaf", 9, altered(d, lambda e: e.shift_batching(repetition, product([3], d.others(last))))
    yield "batching_from_power_0", 9, whole(from_power_0())
    yield "answer_at_last_leaf", 10, altered(d, lambda e: e.shift_answer(point, product([3], d.others(last))))
    yield "row_hidden_by_masks", 10, altered(d, lambda e: e.compensate(0, 1, 8, range(d.sizes.eta)).rehash())
    d = drawn(BLINDED)
    yield "another_beta", 7, altered(d, lambda e: setattr(e, "sizes", BLINDED._replace(beta=1)))
    yield "blinding_row_hidden_by_masks", 10, altered(d, lambda e: e.compensate(5, 4, 8, range(d.sizes.eta)).rehash())
    yield "batching_with_blinds_not_taken_off", 9, whole(mistaken("batchings", "blinds not taken off"))
    yield "batching_without_blinding_rows", 9, whole(mistaken("batchings", "no blinding rows"))
    yield "answer_with_blinds_not_taken_off", 10, whole(mistaken("answers", "blinds not taken off"))
    yield "answer_without_top_coefficients", 10, whole(mistaken("answers", "no top coefficients"))


def hashed_otherwise(mistake):
    """Leaves and nodes hashed with a mistake in their strings, up to the root."""
    s = Sizes(3, 1, 1, 2, 2, 1, 1)
    src, c = commitment(s)
    e = honest(c, ask(src, c))
    strings = {label: (leaf, node) for label, leaf, node in wrong_strings()}
    levels = levels_with(c, *strings[mistake])
    e.root = levels[-1][0]
    e.nodes = [levels[level][i] for level, i in S.missing_nodes(s.h, e.indices)]
    return e


def from_power_0():
    """Batching answers that begin with the power 0 of the challenge."""
    src, c = commitment(Sizes(3, 2, 1, 2, 2, 2, 1))
    q = ask(src, c)
    e = honest(c, q)
    e.batchings = dict(wrong_batchings(c, q))["batching from power 0"]
    return e


def mistaken(part, label):
    """Batching or evaluation answers over columns with that mistake."""
    src, c = commitment(BLINDED)
    q = ask(src, c)
    e, lines = honest(c, q), dict(wrong_lines(c))[label]
    if part == "batchings":
        masks = [S.mask_of(BLINDED, c.lent.masks, k) for k in range(BLINDED.eta)]
        e.batchings = [S.batching_of(BLINDED, lines, *pair) for pair in zip(masks, q.challenges)]
    else:
        e.answers = [S.answer_of(lines, z) for z in q.points]
    return e


# ---- About the salt ---------------------------------------------------------------------------------


def renewed(salt):
    """The badge of "several_polynomials", committed under this salt and asked the same."""
    src, c = commitment(SEVERAL)
    q = ask(src, c)
    c = committed(SEVERAL, c.lent._replace(salt=salt))
    return honest(c, q._replace(root=c.tree[-32:], salt=salt))


def salted():
    """(name, verdict, input)"""
    d, zeros, other = drawn(SEVERAL), renewed(bytes(32)), renewed(salt_by("another year"))
    assert d.answers == zeros.answers == other.answers and len({d.root, zeros.root, other.root}) == 3
    question, data = d.question(), whole(d)
    yield "salt_of_zeros", 0, whole(zeros)
    yield "renewed", 0, whole(other)
    yield "version_2", 5, with_version(data, 2)
    yield "version_2_without_salt", 5, version_2(data)
    yield "question_without_salt", 6, without_salt(question)
    yield "other_salt_first_byte", 8, spoiled(data, S.SALT_AT)
    yield "other_salt_last_byte", 8, spoiled(data, S.AFTER_SALT - 1)
    yield "other_salt_and_root", 8, spoiled(spoiled(data, S.SALT_AT), S.SALT_AT - 1)
    yield "salt_before_root", 8, exchanged_salt(data)
    yield "salt_of_another_year", 8, altered(other, lambda e: setattr(e, "salt", d.salt))
    yield "reply_of_another_year", 8, other.question() + d.reply()
    for label in ("leaf", "node", "leaf and node"):
        mistake = label + " with no salt"
        yield mistake.replace(" ", "_"), 8, whole(hashed_otherwise(mistake))
    for mistake in ("leaf with salt after the index", "node with salt before the first byte"):
        yield mistake.replace(" ", "_"), 8, whole(hashed_otherwise(mistake))


# ---- Files ------------------------------------------------------------------------------------------


def cases():
    """(name, verdict, input)"""
    for label, draft in accepted():
        yield label, 0, whole(draft)
    yield from question_refused()
    yield from reply_refused()


def printed(cases):
    """(name, input, name and output), each verdict compared with that of the construction."""
    for label, verdict, data in cases:
        output = S.program(data)
        assert output.startswith(b"verdict %d\n" % verdict), (label, output)
        yield label, data, label.encode() + b"\n" + output


def files():
    """(path from the repository's root, contents)"""
    p = whole(case_p())
    assert len(case_p().question()) == 89 and len(case_p().reply()) == 88
    assert S.program(p) == b"verdict 0\n1 1 5\n" and S.program(b"") == b"verdict 6\n"
    yield "crates/verdict/stdin", p
    yield "crates/verdict/stdout", S.program(p)
    yield "crates/verdict_empty/stdout", S.program(b"")
    others, about_salt = list(printed(cases())), list(printed(salted()))
    if sha256(b"".join(text for _, _, text in others)).hexdigest() != BEFORE_SALT:
        sys.exit("a case that is not about the salt prints something else than before there was one")
    stored = others + about_salt
    assert len({label for label, _, _ in stored}) == len(stored)
    for label, data, _ in stored:
        yield "crates/cases/data/" + label, data
    yield "crates/cases/args", "".join(label + "\n" for label, _, _ in stored).encode()
    yield "crates/cases/stdout", b"".join(text for _, _, text in stored)


def differing(stored, folder):
    """Paths whose contents are not the ones made here, and stored inputs that are not made here."""
    for path, data in stored.items():
        if not (ROOT / path).is_file() or (ROOT / path).read_bytes() != data:
            yield path
    for path in sorted((ROOT / folder).glob("*")):
        if str(path.relative_to(ROOT)) not in stored:
            yield str(path.relative_to(ROOT))


def compare_or_write(files, folder, about):
    """With --check compares the files with what is stored, else writes them; the folder has no others. The files are
    made once the program's arguments, which --help tells with `about`, are taken."""
    check = only_check(about)
    stored = dict(files())
    if check:
        wrong = list(differing(stored, folder))
        for path in wrong:
            print("not what the second implementation gives:", path)
        print("%d stored files, %d differ" % (len(stored), len(wrong)))
        sys.exit(1 if wrong else 0)
    for path in differing(stored, folder):
        (ROOT / path).unlink(missing_ok=True)
    for path, data in stored.items():
        (ROOT / path).parent.mkdir(parents=True, exist_ok=True)
        (ROOT / path).write_bytes(data)
    print("%d files written" % len(stored))


if __name__ == "__main__":
    compare_or_write(files, "crates/cases/data", __doc__)
