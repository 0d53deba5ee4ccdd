#!/usr/bin/env python3
"""The stored output of the program `openings`, made by the second implementation.

    tools/stored_openings.py            writes it
    tools/stored_openings.py --check    makes it anew and compares it with what is stored

Nothing here runs the proved program: the inputs are made by the rules that crates/runs/src/inputs.rt states, every
outcome is what reference/smallwood.py says, and each reply is checked by it. Each refusal also has the number that its
construction gives.

The runs without blinding rows come first, then those with them, then those about the salt. All but the last are those of
version 2, which had no salt. Of its stored output tables, lengths and refusals stay as they were; trees, roots and the nodes
of replies cannot. With the salt left out of leaf and node strings again, and out of the questions, the runs have to give all
that they gave, by its SHA-256: the opener believes the tree that it is lent, and one without a salt gives the older reply.
"""

import sys
from hashlib import sha256
from pathlib import Path

ROOT = Path(__file__).resolve().parent.parent
sys.dont_write_bytecode = True
sys.path.insert(0, str(ROOT / "reference"))

import smallwood as S  # noqa: E402
from arguments import only_check  # noqa: E402
from calls import version_2, with_version  # noqa: E402
from drafts import Lent  # noqa: E402
from smallwood import Q, Question, Sizes  # noqa: E402

STORED = ROOT / "crates" / "openings" / "stdout"
# git show 9f124fc:crates/openings/stdout | sha256sum
VERSION_2 = "d78c58f0f217d267d535f9a2ef1ccdb970ac2468f42626fba890b5dee2135609"
LARGEST = 2**32 - 1
BLINDS, SALT, OTHER_SALT = 11, 42, 43  # their tags in the rules
SHORT = 1500  # replies below this many bytes are printed whole


# ---- Inputs -----------------------------------------------------------------------------------------


def item(tag, i):
    return i * 2654435761 + tag * 97 + 12345


def words(tag, count):
    return [item(tag, i) % Q for i in range(count)]


def octets(tag, count):
    return bytes(item(tag, i) // 65536 % 256 for i in range(count))


def salt(tag, count=S.SALT_BYTES):
    """Words as bytes: bytes by the other rule hardly depend on the tag, and a salt would be the first nonce."""
    return S.to_bytes(words(tag, 16))[:count]


def points(count):
    return [0 if k % 5 == 3 else item(6, k % 5) % Q for k in range(count)]


def lent(s):
    """Coefficients, tails, blinds, masks, nonces, salt; then table and tree before committing."""
    given = Lent(
        words(1, s.w * s.each), words(2, s.rows * s.l), words(BLINDS, s.w * s.blinds_each), words(3, s.eta * s.width),
        octets(4, 32 * s.leaves), salt(SALT),
    )  # fmt: skip
    return given, words(7, s.leaves * s.record), octets(8, 32 * (2 * s.leaves - 1))


def shorter(given, part):
    """What is lent, with one slice less by its last item."""
    return given._replace(**{part: getattr(given, part)[:-1]})


def with_q(given, part):
    """What is lent, with q for the last word of one slice."""
    items = getattr(given, part)
    return given._replace(**{part: with_item(items, len(items) - 1, Q)})


def reply_room(length):
    """What the reply's buffer holds before."""
    return octets(9, length)


def question_of(s, tree, named, first, step):
    """The question about the commitment with this tree and this salt."""
    indices = [first + step * k for k in range(s.l)]
    return S.write_question(Question(s, tree[-32:], named, words(5, s.eta), points(s.m), indices))


def tree_without_salt(s, table, nonces):
    """The tree as it was in version 2."""
    values = [table[i * s.record : (i + 1) * s.record] for i in range(s.leaves)]
    strings = [S.leaf_string(b"", i, v, S.nonce_of(nonces, i)) for i, v in enumerate(values)]
    return S.tree_of(b"", [S.digest(string) for string in strings])


# ---- Accepted ---------------------------------------------------------------------------------------


def sizes_text(s):
    return "h %d mu %d nu %d w %d l %d eta %d beta %d" % s.of_commitment


def size_text(question):
    number, length = S.reply_length(question)
    return "size %d" % number if number else "size 0 %d" % length


def accepted(s, given, table, tree, before, ask):
    """A run, and the same as it was in version 2."""
    number, table, tree = S.commit(*s.of_commitment, *given, table, tree)
    assert number == 0
    question, length, reply = opened(given, table, tree, before, ask)
    assert S.judge(question, reply, 4 * s.w * s.m)[0] == 0
    older_tree = tree_without_salt(s, table, given.nonces)
    older_question, older_length, older_reply = opened(given, table, older_tree, before, ask)
    assert (older_length, older_reply[: -32 * nodes_in(question)]) == (length, reply[: -32 * nodes_in(question)])
    yield sizes_text(s)
    yield "commit 0"
    yield "table digest " + S.digest(S.to_bytes(table)).hex()
    yield Both("tree digest " + S.digest(tree).hex(), "tree digest " + S.digest(older_tree).hex())
    yield "m %d" % s.m
    yield Both("question " + question.hex(), "question " + version_2(older_question).hex())
    yield size_text(question)
    yield "open 0"
    yield "length %d" % length
    yield Both(reply_text(reply), reply_text(older_reply))


def opened(given, table, tree, before, ask):
    """(question, length, reply)"""
    question = ask(tree)
    number, length, reply = S.open_reply(question, *given, table, tree, before(S.reply_length(question)[1]))
    assert number == 0
    return question, length, reply


def nodes_in(question):
    """How many nodes the reply ends with."""
    q = S.read_question(question)[1]
    return len(S.missing_nodes(q.sizes.h, q.indices))


def reply_text(reply):
    return "reply " + reply.hex() if len(reply) < SHORT else "reply digest " + S.digest(reply).hex()


class Both(str):
    """A line that was another in version 2."""

    def __new__(cls, line, older):
        both = super().__new__(cls, line)
        both.older = older
        return both


def case_p():
    """The papers name neither nonces nor salt: they are zeros."""
    s = Sizes(1, 1, 1, 1, 1, 1, 1)
    given = Lent([5], [9], [], [7, 2], bytes(64), bytes(S.SALT_BYTES))

    def ask(tree):
        return S.write_question(Question(s, tree[-32:], given.salt, [10], [6], [1]))

    yield from accepted(s, given, [0] * 4, bytes(96), bytes, ask)


SMALL = Sizes(2, 2, 1, 2, 2, 2, 1)  # those of the refusals
BLINDED = Sizes(2, 2, 2, 1, 2, 2, 1, 1)  # and those with one blind

CASES = (  # the sizes, then the first index and the step
    (Sizes(4, 3, 2, 4, 5, 2, 3), 1, 3),
    (Sizes(9, 2, 256, 1, 3, 1, 1), 0, 255),
    (Sizes(9, 2, 1, 256, 3, 1, 2), 111, 200),
    (Sizes(3, 2, 2, 2, 2, 1, 8), 3, 4),
    (Sizes(3, 5, 1, 3, 4, 4, 1), 0, 2),
    (Sizes(3, 1, 4, 1, 4, 1, 1), 4, 1),
    (Sizes(12, 64, 16, 16, 64, 4, 8), 63, 64),
    (SMALL, 1, 2),
)

BLINDED_CASES = (
    (BLINDED, 1, 2),
    (Sizes(1, 1, 1, 1, 1, 1, 1, 1), 1, 0),  # nu = 1: no blinds
    (Sizes(3, 4, 1, 3, 2, 3, 1, 2), 2, 3),
    (Sizes(4, 3, 3, 2, 4, 2, 2, 3), 0, 5),  # beta = mu
    (Sizes(5, 16, 2, 5, 3, 1, 3, 16), 9, 11),
    (Sizes(9, 2, 256, 1, 3, 1, 1, 2), 0, 255),
    (Sizes(12, 48, 16, 16, 64, 4, 8, 16), 63, 64),
)


SALTED_CASES = ((SMALL, 1, 2), (BLINDED, 1, 2))  # once more, with another salt


def case(s, first, step, tag=SALT):
    given, table, tree = lent(s)
    given = given._replace(salt=salt(tag))
    yield from accepted(s, given, table, tree, reply_room, lambda tree: question_of(s, tree, given.salt, first, step))


# ---- Refused ----------------------------------------------------------------------------------------


def with_item(items, at, value):
    """The slice with one item changed."""
    return items[:at] + (bytes([value]) if isinstance(items, bytes) else [value]) + items[at + 1 :]


def raised(data, at):
    return with_item(data, at, (data[at] + 1) % 256)


class Committing:
    """Commits with what is lent at these sizes, and a line for each."""

    def __init__(self, s):
        self.s = s
        self.given, self.table, self.tree = lent(s)

    def line(self, expected, sizes=None, given=None, table=None, tree=None):
        s, before = sizes or self.s, (table or self.table, tree or self.tree)
        number, *after = S.commit(*s.of_commitment, *(given or self.given), *before)
        assert number == expected, (number, expected)
        return "%s commit %d %s" % (sizes_text(s), number, "same" if tuple(after) == before else "changed")


def refused_commits():
    c = Committing(SMALL)
    for changed in (
        dict(h=0), dict(h=13), dict(mu=0), dict(mu=65), dict(nu=0), dict(nu=257), dict(w=0), dict(w=257),
        dict(h=12, nu=16, w=17), dict(l=0), dict(h=12, l=65), dict(eta=0), dict(eta=5), dict(l=3),
    ):  # fmt: skip
        yield c.line(1, c.s._replace(**changed))
    for part in ("coefficients", "tails", "masks", "nonces"):
        yield c.line(2, given=shorter(c.given, part))
    yield c.line(2, table=c.table[:-1])
    yield c.line(2, tree=c.tree[:-1])
    for part in ("coefficients", "tails", "masks"):
        yield c.line(3, given=with_q(c.given, part))
    yield c.line(0)


def with_blinds(given, count):
    return given._replace(blinds=words(BLINDS, count))


def refused_blinded_commits():
    c = Committing(SMALL)
    for changed in dict(beta=3), dict(mu=20, beta=17), dict(mu=49, beta=16), dict(mu=64, beta=1), dict(beta=LARGEST):
        yield c.line(1, c.s._replace(**changed))
    yield c.line(1, Sizes(*[LARGEST] * 8))
    yield c.line(2, given=with_blinds(c.given, 1))
    c = Committing(BLINDED)
    for count in (0, 2):
        yield c.line(2, given=with_blinds(c.given, count))
    for part in ("coefficients", "tails"):
        yield c.line(2, given=shorter(c.given, part))
    yield c.line(2, table=c.table[:-1])
    for part in ("coefficients", "tails", "blinds", "masks"):
        yield c.line(3, given=with_q(c.given, part))
    yield c.line(0)


class Opening:
    """Openings of one commitment, and a line for each."""

    def __init__(self, s):
        self.s = s
        self.given, table, tree = lent(s)
        number, self.table, self.tree = S.commit(*s.of_commitment, *self.given, table, tree)
        assert number == 0
        self.question = question_of(s, self.tree, self.given.salt, 1, 2)
        self.exact = S.reply_length(self.question)[1]

    def asked(self, **changed):
        """The question with other sizes, salt, challenges, points or indices."""
        return S.write_question(S.read_question(self.question)[1]._replace(**changed))

    def line(self, expected, question=None, given=None, table=None, tree=None, room=None):
        question = question or self.question
        given, table, tree = given or self.given, table or self.table, tree or self.tree
        before = reply_room(self.exact if room is None else room)
        number, _, after = S.open_reply(question, *given, table, tree, before)
        assert number == expected, (number, expected)
        return "%s open %d %s" % (size_text(question), number, "same" if after == before else "changed")


def refused_opens():
    o = Opening(SMALL)
    yield o.line(6, o.question[:13])
    for at in (0, 3, 4):
        yield o.line(5, raised(o.question, at))
    yield o.line(1, raised(o.question, 8))
    yield o.line(1, raised(o.question, 11))
    yield o.line(6, raised(o.question, 13))
    yield o.line(6, o.question[:-1])
    yield o.line(3, o.asked(challenges=[Q, 0]))
    yield o.line(3, o.asked(points=[LARGEST]))
    yield o.line(4, o.asked(indices=(1, 1)))
    yield o.line(4, o.asked(indices=(3, 4)))
    for part in ("coefficients", "tails", "masks", "nonces"):
        yield o.line(2, given=shorter(o.given, part))
    yield o.line(2, table=o.table[:-1])
    yield o.line(2, tree=o.tree[:-1])
    for room in (0, o.exact - 1, o.exact + 1, S.reply_bytes(o.s, o.s.l * o.s.h)):
        yield o.line(2, room=room)
    for part in ("coefficients", "tails", "masks"):
        yield o.line(3, given=with_q(o.given, part))
    yield o.line(3, table=with_item(o.table, len(o.table) - 1, Q))
    yield o.line(8, raised(o.question, S.HEADER_BYTES))
    yield o.line(8, tree=raised(o.tree, len(o.tree) - 1))
    yield o.line(0)


def refused_blinded_opens():
    plain, o = Opening(SMALL), Opening(BLINDED)
    yield plain.line(6, plain.question[:14])
    yield plain.line(5, with_version(plain.question, 1))
    for s in o.s._replace(beta=3), SMALL._replace(mu=20, beta=17), SMALL._replace(mu=49, beta=16):
        yield o.line(1, o.asked(sizes=s))
    yield o.line(1, o.asked(sizes=Sizes(255, 255, 65535, 65535, 255, 255, 1, 255)))
    yield plain.line(6, plain.question[: S.HEADER_BYTES])
    yield plain.line(2, given=with_blinds(plain.given, 1))
    for count in (0, 2):
        yield o.line(2, given=with_blinds(o.given, count))
    yield plain.line(2, plain.asked(sizes=SMALL._replace(beta=1)))
    for beta in (0, 2):
        yield o.line(2, o.asked(sizes=o.s._replace(beta=beta)))
    for part in ("coefficients", "tails"):
        yield o.line(2, given=shorter(o.given, part))
    yield o.line(2, table=o.table[:-1])
    for room in (o.exact - 1, o.exact + 1):
        yield o.line(2, room=room)
    for part in ("coefficients", "tails", "blinds", "masks"):
        yield o.line(3, given=with_q(o.given, part))
    yield o.line(3, table=with_item(o.table, len(o.table) - 1, Q))
    yield o.line(0)


# ---- About the salt ---------------------------------------------------------------------------------

SALT_LENGTHS = (0, 31, 33)


def with_salt(given, count):
    """What is lent, with so many bytes of salt by the rules."""
    return given._replace(salt=salt(SALT, count))


def refused_salted_commits():
    c = Committing(SMALL)
    for count in SALT_LENGTHS:
        yield c.line(2, given=with_salt(c.given, count))
    yield c.line(2, given=with_q(with_salt(c.given, 31), "coefficients"))
    yield c.line(1, c.s._replace(h=0), given=with_salt(c.given, 31))
    yield c.line(0, given=with_salt(c.given, 32))


FIRST, LAST = S.SALT_AT, S.AFTER_SALT - 1  # a question's salt


def refused_salted(run, *more):
    """The lines of a run of opening or proving, with more after its refusals."""
    for version in (1, 2, 4):
        yield run.line(5, with_version(run.question, version))
    yield run.line(6, run.question[: -S.SALT_BYTES])
    for count in SALT_LENGTHS:
        yield run.line(2, given=with_salt(run.given, count))
    yield run.line(3, raised(run.question, FIRST), given=with_q(run.given, "masks"))
    for at in (FIRST, LAST):
        yield run.line(8, raised(run.question, at))
        yield run.line(8, given=with_raised_salt(run.given, at - FIRST))
    yield run.line(8, raised(run.question, FIRST), tree=raised(run.tree, len(run.tree) - 1))
    yield from more
    # Asked and lent are the same again; that the tree has another salt is not looked at.
    for at in (FIRST, LAST):
        yield run.line(0, raised(run.question, at), given=with_raised_salt(run.given, at - FIRST))
    yield run.line(0)


def refused_salted_opens():
    yield from refused_salted(Opening(SMALL))


def with_raised_salt(given, at):
    return given._replace(salt=raised(given.salt, at))


# ---- The whole output -------------------------------------------------------------------------------


def plain_lines():
    """The runs without blinding rows."""
    yield from case_p()
    for c in CASES:
        yield from case(*c)
    yield from refused_commits()
    yield from refused_opens()


def blinded_lines():
    for c in BLINDED_CASES:
        yield from case(*c)
    yield from refused_blinded_commits()
    yield from refused_blinded_opens()


def salted_lines():
    for c in SALTED_CASES:
        yield from case(*c, OTHER_SALT)
    yield from refused_salted_commits()
    yield from refused_salted_opens()


def output():
    others = [*plain_lines(), *blinded_lines()]
    compare_with_version_2(others, VERSION_2)
    return text([*others, *salted_lines()])


def text(lines):
    return "".join(line + "\n" for line in lines).encode()


def in_version_2(line):
    return line.older if isinstance(line, Both) else line


def compare_with_version_2(lines, expected):
    if sha256(text(map(in_version_2, lines))).hexdigest() != expected:
        sys.exit("the runs that are not about the salt are not those of version 2, but for the salt")


def compare_or_write(path, output, about):
    """With --check compares the output with what is stored, else writes it. It is made once the program's arguments,
    which --help tells with `about`, are taken."""
    check = only_check(about)
    made = output()
    if check:
        if not path.is_file() or path.read_bytes() != made:
            sys.exit("%s differs" % path.relative_to(ROOT))
        print("as stored: %s" % path.relative_to(ROOT))
    else:
        path.write_bytes(made)


if __name__ == "__main__":
    compare_or_write(STORED, output, __doc__)
