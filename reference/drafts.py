"""Commitments, questions and replies to make test inputs from: drawn, honest, simulated, altered."""

from collections import namedtuple
from functools import lru_cache
from hashlib import shake_256

import smallwood as S
from smallwood import Q, ProofQuestion, Question, Reply, Sizes

LAST_WORD = 2**32 - 1


# ---- Deterministic source ---------------------------------------------------------------------------


class Source:
    """A stream of bytes from SHAKE256 of a label."""

    def __init__(self, label):
        self.label, self.blocks, self.pool = label, 0, b""

    def bytes(self, count):
        while len(self.pool) < count:
            self.pool += shake_256(("%s/%d" % (self.label, self.blocks)).encode()).digest(1024)
            self.blocks += 1
        taken, self.pool = self.pool[:count], self.pool[count:]
        return taken

    def below(self, bound):
        return int.from_bytes(self.bytes(8), "little") % bound

    def between(self, low, high):
        return low + self.below(high - low + 1)

    def pick(self, choices):
        return choices[self.below(len(choices))]

    def elements(self, count):
        return [self.below(Q) for _ in range(count)]

    def edgy(self, count):
        """Elements, often the field's ends."""
        return [self.pick((0, 1, Q - 1, self.below(Q))) for _ in range(count)]

    def nonzero(self):
        return self.between(1, Q - 1)

    def rising(self, bound, count):
        """`count` different numbers below `bound`, in rising order."""
        chosen = set()
        while len(chosen) < count:
            chosen.add(self.below(bound))
        return sorted(chosen)

    def sizes(self, max_h=5, max_mu=5, max_width=20):
        h = self.between(1, max_h)
        width = self.between(2, min(2**h, max_width))
        l = self.between(1, min(width - 1, 64))
        columns = min(width - l, 256)
        w = self.between(1, columns)
        nu = self.between(1, columns // w)
        s = Sizes(h, self.between(1, max_mu), nu, w, l, self.between(1, 4), self.between(1, 8))
        return s._replace(beta=self.beta(s.mu))

    def beta(self, mu):
        """A number of blinding rows for so many others: none, one, most, any."""
        most = min(mu, 16, 64 - mu)
        return self.pick((0, min(1, most), most, self.between(0, most)))


def prefill(count):
    """What a buffer holds before a call."""
    return shake_256(b"prefill").digest(count)


def ends(count):
    """The first and the last of `count` places."""
    return sorted({0, count - 1})


def name(s):
    """The sizes in short; beta stands there only where there are blinding rows."""
    return "h%d mu%d nu%d w%d l%d eta%d m%d" % s[:7] + (" beta%d" % s.beta if s.beta else "")


def leaf_sizes():
    """A leaf of every number of values, and so a leaf's string of every length: 75 to 339 bytes.

    Each once without blinding rows, and once with as many of the rows blinding as can be.
    """
    for values in range(2, 69):
        eta = min(4, values - 1)
        rows = values - eta
        beta = min(16, rows // 2)
        yield Sizes(2, rows, 1, 1, 1, eta, 1)
        if beta > 0:
            yield Sizes(2, rows - beta, 2, 1, 1, eta, 1, beta)


# ---- Commitments, drafts of a question with its reply -----------------------------------------------

Lent = namedtuple("Lent", "coefficients tails blinds masks nonces salt")
Commitment = namedtuple("Commitment", "sizes lent table tree")


def lend(src, s, fill, salt=None):
    """What is lent at these sizes; a salt that is not given is drawn."""
    counts = s.w * s.each, s.rows * s.l, s.w * s.blinds_each, s.eta * s.width
    return Lent(*map(fill, counts), src.bytes(32 * s.leaves), salt or src.bytes(32))


def outputs(s):
    """Table and tree as they are lent: prefilled."""
    return S.to_words(prefill(4 * s.leaves * s.record)), prefill(32 * (2 * s.leaves - 1))


def committed(s, lent):
    number, table, tree = S.commit(*s.of_commitment, *lent, *outputs(s))
    assert number == 0, s
    return Commitment(s, lent, table, tree)


@lru_cache(maxsize=None)
def random_commitment(s):
    src = Source("commitment " + name(s))
    return committed(s, lend(src, s, src.elements))


def product(a, b):
    result = [0] * (len(a) + len(b) - 1)
    for i, x in enumerate(a):
        for j, y in enumerate(b):
            result[i + j] = (result[i + j] + x * y) % Q
    return result


def vanishing(points):
    """Coefficients of the product of X - p."""
    result = [1]
    for p in points:
        result = product(result, [-p % Q, 1])
    return result


def add(a, b):
    """Sum of coefficient lists; b is not longer."""
    return [(x + y) % Q for x, y in zip(a, list(b) + [0] * (len(a) - len(b)))]


def power_sum(values, x):
    """Sum of x^j times value j."""
    return sum(pow(x, j, Q) * v for j, v in enumerate(values)) % Q


class Draft:
    """A question and a reply in parts that can be altered, then written."""

    def __init__(self, q, r):
        self.sizes, self.root, self.salt = q.sizes, q.root, q.salt
        self.challenges, self.points, self.indices = list(q.challenges), list(q.points), list(q.indices)
        self.batchings, self.answers = [list(x) for x in r.batchings], [list(x) for x in r.answers]
        self.leaves, self.nodes = [(list(v), n) for v, n in r.leaves], list(r.nodes)

    def parts(self):
        q = Question(self.sizes, self.root, self.salt, self.challenges, self.points, self.indices)
        return q, Reply(self.batchings, self.answers, self.leaves, self.nodes)

    def copy(self):
        return Draft(*self.parts())

    def question(self):
        return S.write_question(self.parts()[0])

    def reply(self):
        return S.write_reply(self.parts()[1])

    def values(self):
        """The values that the answers' columns give."""
        s = self.sizes
        return [
            sum(pow(z, t * s.mu, Q) * answer[i * s.nu + t] for t in range(s.nu)) % Q
            for z, answer in zip(self.points, self.answers)
            for i in range(s.w)
        ]

    def rehash(self):
        """Take for root what leaves and nodes hash to."""
        digests = [S.digest(S.leaf_string(self.salt, i, *leaf)) for i, leaf in zip(self.indices, self.leaves)]
        self.root = S.root_of(self.sizes.h, self.salt, self.indices, digests, self.nodes)
        return self

    def shift_batching(self, k, polynomial):
        self.batchings[k] = add(self.batchings[k], polynomial)
        return self

    def shift_answer(self, p, polynomial):
        """Add a polynomial of degree at most d to T."""
        shift = [S.evaluate(polynomial, x) for x in S.grid_points(self.sizes)]
        self.answers[p] = add(self.answers[p], shift)
        return self

    def change_value(self, b, at, difference):
        """Change one value of opened leaf number b."""
        values = self.leaves[b][0]
        values[at] = (values[at] + difference) % Q
        return self

    def compensate(self, b, row, difference, repetitions):
        """Change a row value of a leaf, and its mask values so that these repetitions do not see it."""
        self.change_value(b, row, difference)
        for k in repetitions:
            hidden = -pow(self.challenges[k], row + 1, Q) * difference
            self.change_value(b, self.sizes.rows + k, hidden)
        return self

    def others(self, b):
        """Vanishes at every opened leaf but number b."""
        return vanishing(self.indices[:b] + self.indices[b + 1 :])


def drawn_question(src, s, root, salt, challenges=None, points=None, indices=None):
    """A question with these sizes; what is not given is drawn."""
    return Question(
        s,
        root,
        salt,
        challenges or src.elements(s.eta),
        points or src.elements(s.m),
        indices or src.rising(s.leaves, s.l),
    )


def ask(src, c, m=None, **given):
    """A question to a commitment, with another m if that is given."""
    return drawn_question(src, c.sizes._replace(m=m or c.sizes.m), c.tree[-32:], c.lent.salt, **given)


def reply_buffer(question):
    """The buffer in which the opener replies to a good question."""
    return prefill(S.reply_length(question)[1])


def honest(c, q):
    """The opener's reply, as a draft."""
    question = S.write_question(q)
    number, _, reply = S.open_reply(question, *c.lent, c.table, c.tree, reply_buffer(question))
    assert number == 0, q
    return Draft(q, S.read_reply(q.sizes, reply))


# ---- Proofs -----------------------------------------------------------------------------------------


def proof_question(src, c, m=None, points=None):
    """A proof's question to a commitment, with another m if that is given; points that are not given are drawn."""
    s = c.sizes._replace(m=m or c.sizes.m)
    return ProofQuestion(s, c.tree[-32:], c.lent.salt, points or src.elements(s.m))


def answers_of(c, s, challenges, points):
    """Batching and evaluation answers of a commitment; s may have another m."""
    return S.answers_to(s, challenges, points, *c.lent[:4])


def proof_buffer(s):
    """The buffer in which the prover writes."""
    return prefill(S.proof_bound(s))


class ProofDraft:
    """A proof to be: answers that can be altered, and a commitment that is opened at the leaves then drawn."""

    def __init__(self, c, p, parts=None):
        self.commitment, self.question_parts, self.sizes = c, p, p.sizes
        batchings, answers = parts or answers_of(c, p.sizes, S.draw_challenges(p), p.points)
        self.batchings, self.answers = [list(x) for x in batchings], [list(x) for x in answers]

    def copy(self):
        return ProofDraft(self.commitment, self.question_parts, (self.batchings, self.answers))

    def question(self):
        return S.write_proof_question(self.question_parts)

    def draw(self, counter):
        p = self.question_parts
        return S.leaf_draw(p, S.leaf_draws(p, S.write_answers(self.batchings, self.answers)), counter)

    def counters(self, wanted):
        """The counters, from 0 on, whose draw is wanted."""
        p = self.question_parts
        draws = S.leaf_draws(p, S.write_answers(self.batchings, self.answers))
        return (counter for counter in range(2**32) if wanted(S.leaf_draw(p, draws, counter)))

    def qualifying(self, kappa):
        return self.counters(lambda draw: leading_zeros(draw) >= kappa)

    def least(self, kappa):
        return next(self.qualifying(kappa))

    def others(self, kappa):
        """The counters that do not qualify."""
        return self.counters(lambda draw: leading_zeros(draw) < kappa)

    def indices(self, counter):
        return S.question_by_draw(self.question_parts, self.draw(counter)).indices

    def opened(self, counter):
        """The conversation's question that the counter gives, with its reply."""
        c, q = self.commitment, S.question_by_draw(self.question_parts, self.draw(counter))
        leaves, nodes = S.opened_at(self.sizes, q.indices, c.lent.nonces, c.table, c.tree)
        return Draft(q, Reply(self.batchings, self.answers, leaves, nodes))

    def proof(self, counter):
        return S.write_counter(counter) + self.opened(counter).reply()

    def values(self):
        """The values that the answers' columns give."""
        return self.opened(0).values()


def leading_zeros(data):
    """How many bits are zero before the first that is not, from the top bit of the first byte on."""
    return 8 * len(data) - int.from_bytes(data, "big").bit_length()


@lru_cache(maxsize=None)
def small_proofs():
    """Honest proofs to be, to the commitments of case P and of the small drafts."""
    drafts = []
    for d in small_drafts():
        c = case_p_commitment() if d is case_p() else random_commitment(d.sizes)
        drafts.append(ProofDraft(c, proof_question(Source("proof " + name(d.sizes)), c)))
    return drafts


# ---- Drafts that others begin with ------------------------------------------------------------------


def true_values(c, q):
    """The polynomials' values, straight from the coefficients."""
    each = c.sizes.each
    return [
        power_sum(c.lent.coefficients[i * each : (i + 1) * each], z)
        for z in q.points
        for i in range(c.sizes.w)
    ]


def simulated(src, s, salt=None, **given):
    """An accepted draft without any commitment: l leaves never fix a polynomial of degree d, as l <= d.

    Salt, leaf values, nonces, nodes are drawn, the root is what they hash to, R and T go through the leaves.
    """
    q = drawn_question(src, s, bytes(32), salt or src.bytes(32), **given)
    leaves = [(src.elements(s.record), src.bytes(32)) for _ in q.indices]
    zero = vanishing(q.indices)

    def through(values):
        return add(product(zero, src.elements(s.columns)), S.polynomial_through(q.indices, values))

    def opened(k, values):
        return values[s.rows + k] + q.challenges[k] * power_sum(values[: s.rows], q.challenges[k])

    batchings = [through([opened(k, v) for v, _ in leaves]) for k in range(s.eta)]
    polynomials = [through([power_sum(v[: s.rows], z) for v, _ in leaves]) for z in q.points]
    answers = [[S.evaluate(t, x) for x in S.grid_points(s)] for t in polynomials]
    nodes = [src.bytes(32) for _ in S.missing_nodes(s.h, q.indices)]
    return Draft(q, Reply(batchings, answers, leaves, nodes)).rehash()


@lru_cache(maxsize=None)
def case_p_commitment():
    """The paper names neither nonces nor salt: they are zeros."""
    return committed(Sizes(1, 1, 1, 1, 1, 1, 1), Lent([5], [9], [], [7, 2], bytes(64), bytes(32)))


@lru_cache(maxsize=None)
def case_p():
    c = case_p_commitment()
    return honest(c, Question(c.sizes, c.tree[-32:], c.lent.salt, [10], [6], [1]))


@lru_cache(maxsize=None)
def small_drafts():
    """Case P and honest drafts of different shapes; eta and m differ in most, every second one has blinding rows."""
    drafts = [case_p()]
    for s in (
        Sizes(1, 3, 1, 1, 1, 4, 2, 2),
        Sizes(2, 1, 1, 3, 1, 2, 1),
        Sizes(3, 2, 2, 1, 4, 1, 3, 1),
        Sizes(3, 2, 1, 2, 3, 3, 2),
        Sizes(4, 5, 3, 2, 5, 2, 8, 3),
        Sizes(4, 7, 2, 3, 10, 4, 2),
        Sizes(5, 12, 4, 4, 6, 3, 1, 12),
    ):
        c = random_commitment(s)
        drafts.append(honest(c, ask(Source("small " + name(s)), c)))
    return drafts


@lru_cache(maxsize=None)
def large_drafts():
    """Simulated drafts at the far ends of the sizes."""
    return [
        simulated(Source("large " + name(s)), s)
        for s in (Sizes(12, 64, 1, 256, 64, 4, 8), Sizes(12, 48, 256, 1, 64, 4, 8, 16))
    ]


# ---- Sizes at their borders -------------------------------------------------------------------------

RANGES = dict(h=(1, 12), mu=(1, 64), nu=(1, 256), w=(1, 256), l=(1, 64), eta=(1, 4), m=(1, 8), beta=(0, 16))


def allowed(s):
    """Test 1, written a second time."""
    single = all(low <= getattr(s, field) <= high for field, (low, high) in RANGES.items())
    blinding = s.beta <= s.mu <= 64 - s.beta
    return single and blinding and s.w * s.nu <= 256 and s.w * s.nu + s.l <= 2**s.h


def border_sizes():
    """Sizes at and over each end, alone and in their sums and products."""
    base = Sizes(12, 1, 1, 1, 1, 1, 1)
    for field, (low, high) in RANGES.items():
        top = 65535 if field in ("nu", "w") else 255
        for number in sorted({0, low, low + 1, high - 1, high, high + 1, 2 * high, 128, top - 1, top}):
            for s in (base, Sizes(9, 2, 2, 2, 3, 2, 2), Sizes(9, 20, 2, 2, 3, 2, 2, 3)):
                yield s._replace(**{field: number})
    for beta in (1, 2, 15, 16, 17, 32, 255):
        for mu in (beta - 1, beta, beta + 1, 63 - beta, 64 - beta, 65 - beta, 64, 256 - beta):
            if 0 <= mu <= 255:  # at most mu, and 64 with it; a sum of 256 is 0 in 8 bits
                yield base._replace(mu=mu, beta=beta)
                yield base._replace(mu=mu, beta=beta, nu=3, w=2)
    for w, nu in (
        (2, 128), (128, 2), (3, 85), (16, 16), (15, 17),  # taken
        (2, 129), (129, 2), (3, 86), (86, 3), (16, 17), (17, 16), (256, 2), (2, 256), (256, 255),
        (256, 256), (32768, 2), (2, 32768), (1024, 64), (64, 1024),  # the product is 0 in 16 bits
        (21846, 3), (3, 21846), (43691, 3), (13108, 5), (65535, 65535),  # ... or small
        (255, 257), (257, 255), (257, 257), (0, 0), (0, 256), (256, 0),
    ):  # fmt: skip
        yield base._replace(w=w, nu=nu)
    for h in range(1, 13):
        for l in sorted({1, 2, 2**h // 2, 2**h - 1, 63, 64}):
            for columns in (2**h - l - 1, 2**h - l, 2**h - l + 1, 256):
                if 1 <= l <= 64 and 1 <= columns <= 256:
                    yield base._replace(h=h, l=l, nu=columns)
                    if columns == 2**h - l + 1:
                        yield base._replace(h=h, l=l, w=columns)
