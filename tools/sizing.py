"""What sizes give and what they cost. Counts are whole numbers and fractions; logarithms are for display alone, and for
the least of the sources' bound.

What is given are three shares: of all sets of leaves those for which a false answer passes, if the committer is trusted
and if it is not, and of all challenges those that rows can be prepared for. The sources' terms are those of source
document 000 (theorem 3; "Batching using powers") and of equation 6 of 001, the lengths of slices and strings those of
the second implementation. `selftest` holds the formulas against counting at small sizes.
"""

from collections import namedtuple
from fractions import Fraction
from functools import lru_cache
from itertools import combinations, product
from math import comb, inf, log2
from unittest.mock import patch

import accepted_sets
import paths  # noqa: F401  (makes the second implementation importable)
import smallwood as S

MOST_ROWS, MOST_COLUMNS, MOST_OPENED, MOST_ETA = 64, 256, 64, 4
DEPTHS = range(1, 13)
COMMITTERS = TRUSTED, ANYONE = "trusted", "anyone"


# ---- What sizes give, exactly ----------------------------------------------------------------------


def most_fitting(leaves, columns, opened, committer):
    """Leaves that a false answer can fit. Rows of a trusted committer have degrees below the width, and another answer
    than theirs agrees at fewer leaves than that. Whoever committed: two different answers share no more leaves, so
    that one of them fits at most half of these and of all."""
    shared = columns + opened - 1
    return shared if committer == TRUSTED else (leaves + shared) // 2


def least_opened(leaves, columns, bits, committer):
    """The least number of opened leaves for so many bits; None where there is none. No search by halves would do: from
    some number of leaves on bits are lost again."""
    for opened in range(1, min(MOST_OPENED, leaves - columns) + 1):
        if comb(most_fitting(leaves, columns, opened, committer), opened) << bits <= comb(leaves, opened):
            return opened
    return None


def passing(s, committer, kappa=0):
    """The share of all sets of l leaves, and of the counters that qualify, with which a false answer passes."""
    return Fraction(comb(most_fitting(s.leaves, s.columns, s.l, committer), s.l), comb(s.leaves, s.l) << kappa)


def prepared(rows, eta):
    """The share of all challenges for which rows of any degree can be prepared."""
    return Fraction(rows, S.Q) ** eta


Shares = namedtuple("Shares", "trusted anyone eta")


def shares(s, kappa=0):
    return Shares(*(passing(s, committer, kappa) for committer in COMMITTERS), prepared(s.rows, s.eta))


def reaches(share, bits):
    return share.numerator << bits <= share.denominator


def bits(share):
    """-log2 of it, rounded down to tenths, from whole numbers: a power of 10 has as many bits as it has tenths."""
    return Fraction((share.denominator**10 // share.numerator**10).bit_length() - 1, 10)


# ---- What the sources' bound is made of, as powers of two --------------------------------------------


@lru_cache(maxsize=None)
def log2_choices(of, chosen):
    return log2(comb(of, chosen)) if chosen <= of else -inf


def leaf_term(s):
    """Of the share of all sets of l leaves that lie within width - 1 given ones."""
    return log2_choices(s.width - 1, s.l) - log2_choices(s.leaves, s.l)


def guessed(rows, eta):
    return eta * (log2(rows) - log2(S.Q))


def degree_term(s):
    return log2_choices(s.leaves, s.width + 1) + guessed(s.rows, s.eta)


def sum_of_terms(s):
    """The sources' bound for a reader that asks once."""
    smaller, larger = sorted((leaf_term(s), degree_term(s)))
    return larger + log2(1 + 2 ** (smaller - larger))


def larger_term(s, kappa):
    """What their bound has, for a proof, for each string that is hashed."""
    return max(leaf_term(s) - kappa, degree_term(s))


def best(bound, columns, mu, beta):
    """The sizes with the least bound, of all with these rows and at least so many columns. Points have no part in it,
    more rows and fewer repetitions only make it larger."""
    return min(
        (
            S.Sizes(h, mu, count, 1, opened, MOST_ETA, 1, beta)
            for h in DEPTHS
            for count in range(columns, min(MOST_COLUMNS, (1 << h) - 1) + 1)
            for opened in range(1, min(MOST_OPENED, (1 << h) - count) + 1)
        ),
        key=bound,
    )


# ---- Nodes above the opened leaves -------------------------------------------------------------------


@lru_cache(maxsize=None)
def extreme_nodes(h, opened):
    """The least and the most nodes above so many leaves, by all ways to split these between the halves of the tree."""
    if opened == 0 or h == 0:
        return 0, 0
    half = 1 << h - 1
    splits = range(max(0, opened - half), min(opened, half) + 1)
    both = [(extreme_nodes(h - 1, left), extreme_nodes(h - 1, opened - left)) for left in splits]
    return 1 + min(a[0] + b[0] for a, b in both), 1 + max(a[1] + b[1] for a, b in both)


@lru_cache(maxsize=None)
def mean_nodes(h, opened):
    """Over all sets of so many leaves, each as likely as any other: a node on level k is above none of them where all
    are among the leaves that are not below it."""
    leaves = 1 << h
    none = [Fraction(comb(leaves - (1 << k), opened), comb(leaves, opened)) for k in range(1, h + 1)]
    return sum((leaves >> k) * (1 - none[k - 1]) for k in range(1, h + 1))


def nodes_above(s):
    """Least, mean, most."""
    least, most = extreme_nodes(s.h, s.l)
    return least, mean_nodes(s.h, s.l), most


# ---- What it costs --------------------------------------------------------------------------------


def replies(s):
    """Bytes of the shortest, the mean and the longest reply. Of the 2A children of the A nodes above the opened leaves,
    l are these leaves and A - 1 such nodes; the others are missing."""
    return tuple(S.reply_bytes(s, nodes + 1 - s.l) for nodes in nodes_above(s))


def permutations_of_leaf(s):
    return S.permutations_for(S.leaf_string_bytes(s))


def permutations_to_commit(s):
    return s.leaves * permutations_of_leaf(s) + (s.leaves - 1) * S.permutations_for(S.NODE_STRING_BYTES)


def permutations_to_check(s):
    """Least, mean, most."""
    each = S.permutations_for(S.NODE_STRING_BYTES)
    return tuple(s.l * permutations_of_leaf(s) + each * nodes for nodes in nodes_above(s))


def table_bytes(s):
    return 4 * s.leaves * s.record


def tree_bytes(s):
    return S.DIGEST_BYTES * (2 * s.leaves - 1)


def nonce_bytes(s):
    return S.NONCE_BYTES * s.leaves


# ---- What there is to choose from -----------------------------------------------------------------


def splits(coefficients, polynomials, beta):
    """(mu, nu) with room for the coefficients: each number of rows with the fewest columns."""
    found = {}
    for nu in range(1, MOST_COLUMNS // polynomials + 1):
        mu = max(1, beta, -(-(coefficients - beta) // nu))
        if mu + beta <= MOST_ROWS:
            found.setdefault(mu, nu)
    return found.items()


def costs(s):
    """What is to be small: mean bytes of a reply, permutations to commit, mean permutations to check."""
    return replies(s)[1], permutations_to_commit(s), permutations_to_check(s)[1]


def unbeaten(every):
    """Those of the sizes that no others beat: cost less in one way, and more in none."""
    found = [(s, costs(s)) for s in every]
    distinct = {own for _, own in found}
    return [s for s, own in found if not any(c != own and all(a <= b for a, b in zip(c, own)) for c in distinct)]


# ---- Tests against counting ------------------------------------------------------------------------


class Different(Exception):
    pass


def expect(found, wanted, *where):
    if found != wanted:
        raise Different("%s: %s, and not %s" % (where, found, wanted))


def expect_shares(committer, counted):
    """All numbers of columns and opened leaves at 2, 4 and 8 leaves, and the least numbers for 0 to 9 bits there."""
    done = 0
    for h in range(1, 4):
        for columns in range(1, 1 << h):
            found = {}
            for opened in range(1, (1 << h) - columns + 1):
                s = S.Sizes(h, 1, columns, 1, opened, 1, 1)
                found[opened] = share = counted(1 << h, columns, opened)
                expect(passing(s, committer), share, "share", committer, s)
                expect(passing(s, committer, 3), share / 8, "share, with kappa", committer, s)
            for wanted in range(10):
                enough = [opened for opened, share in found.items() if share * 2**wanted <= 1]
                least = least_opened(1 << h, columns, wanted, committer)
                expect(least, min(enough, default=None), "least number of leaves", committer, h, columns, wanted)
                done += 1
    return done


def counted_trusted(leaves, columns, opened):
    """The largest share, over all choices of width - 1 leaves, of the sets of opened leaves that lie within them."""
    every = [set(chosen) for chosen in combinations(range(leaves), opened)]
    return max(
        Fraction(sum(chosen <= set(within) for chosen in every), len(every))
        for within in combinations(range(leaves), columns + opened - 1)
    )


@lru_cache(maxsize=None)
def sets_inside(leaves, opened):
    """For each set of leaves, as the bits of its number, the sets of opened leaves that lie within it."""
    every = [sum(1 << leaf for leaf in chosen) for chosen in combinations(range(leaves), opened)]
    return [sum(chosen & ~within == 0 for chosen in every) for within in range(1 << leaves)]


@lru_cache(maxsize=None)
def pairs_of_sets(leaves):
    """All pairs of sets of leaves by how many they share."""
    found = {}
    for one in range(1 << leaves):
        for other in range(one + 1):
            found.setdefault(bin(one & other).count("1"), []).append((one, other))
    return found


def counted_anyone(leaves, columns, opened):
    """The largest share, over all pairs of sets that share fewer leaves than the width, of that of them which has fewer
    sets of opened leaves within it."""
    inside, by_shared = sets_inside(leaves, opened), pairs_of_sets(leaves)
    pairs = (pair for shared in range(columns + opened) for pair in by_shared.get(shared, ()))
    return Fraction(max(min(inside[one], inside[other]) for one, other in pairs), comb(leaves, opened))


def test_shares():
    done = expect_shares(TRUSTED, counted_trusted) + expect_shares(ANYONE, counted_anyone)
    for h, columns, opened in ((3, 2, 3), (6, 1, 32), (12, 256, 64)):
        s = S.Sizes(h, 1, columns, 1, opened, 1, 1)
        share = passing(s, TRUSTED)
        expect(round(leaf_term(s), 9), round(log2(share.numerator) - log2(share.denominator), 9), "leaf term", s)
    return "shares of sets of leaves, and the least number of leaves: %d times by counting sets" % done


def value_at(coefficients, x, q):
    return sum(a * x**i for i, a in enumerate(coefficients)) % q


def fitting(values, answers, q):
    """How many leaves fit each answer, a polynomial by its coefficients."""
    return [sum(value_at(answer, x, q) == v for x, v in enumerate(values)) for answer in answers]


def test_two_answers():
    """In small fields, for every polynomial as the difference of two answers, one of them 0, and for all values of the
    leaves that fit either: the answer that fits fewer leaves fits no more than the formula says, and some as many."""
    tried = (5, 4, 1), (5, 4, 2), (5, 4, 3), (7, 6, 1), (11, 4, 2), (11, 6, 1), (13, 4, 1)
    for q, leaves, degree in tried:
        fewest = []
        for chosen in product(range(q), repeat=degree + 1):
            own = [value_at(chosen, x, q) for x in range(leaves)]
            if any(chosen):
                expect(own.count(0) <= degree, True, "shared leaves", q, leaves, chosen)
                fewest += (min(fitting(v, ((0,), chosen), q)) for v in product(*({0, value} for value in own)))
        expect(max(fewest), most_fitting(leaves, degree, 1, ANYONE), "leaves of two answers", q, leaves, degree)
    return "leaves that two different answers fit: in %d small fields by all differences" % len(tried)


def test_accepted():
    return accepted_sets.selftest(expect)


def test_bits():
    """Bits against whoever committed are at most the opened leaves, at all sizes: one column has the most. Rounding, at
    powers of two and beside them."""
    for h in DEPTHS:
        for opened in range(1, min(MOST_OPENED, (1 << h) - 1) + 1):
            s = S.Sizes(h, 1, 1, 1, opened, 1, 1)
            expect(passing(s, ANYONE) * 2**opened >= 1, True, "bits and leaves", s)
            wider = s._replace(nu=min(MOST_COLUMNS, s.leaves - opened))
            expect(passing(wider, ANYONE) >= passing(s, ANYONE), True, "more columns", s)
    for exponent in (1, 40, 212):  # 2^(1/10) lies between 1.0717 and 1.0718, its inverse between 0.933 and 0.9331
        for share, tenths in ((10718, -2), (10717, -1), (10001, -1), (10000, 0), (9331, 0), (9330, 1)):
            expect(bits(Fraction(share, 10000 << exponent)), exponent + Fraction(tenths, 10), "bits", share, exponent)
            expect(reaches(Fraction(share, 10000 << exponent), exponent), share <= 10000, "reaches", share, exponent)
    return "bits: at most one for each opened leaf whoever committed, at all sizes; rounded down"


def test_prepared():
    """In small fields: no u + v_1 X + .. + v_n X^n but 0 has more zeros than n, and some has n."""
    tried = (3, 1), (3, 2), (5, 1), (5, 2), (5, 3), (7, 2)
    for q, rows in tried:
        zeros = (
            sum(value_at(chosen, x, q) == 0 for x in range(q))
            for chosen in product(range(q), repeat=rows + 1)
            if any(chosen)
        )
        most = max(zeros)
        with patch.object(S, "Q", q):
            for eta in range(1, MOST_ETA + 1):
                expect(prepared(rows, eta), Fraction(most**eta, q**eta), "zeros", q, rows, eta)
    return "challenges that rows can be prepared for: as many as rows, %d times by counting zeros" % len(tried)


def test_splits():
    """Every split with room for the coefficients has as many columns as one that is found, or more; and of sizes that
    differ in one way alone the smaller are left."""
    tried = (1, 1, 0), (34, 4, 2), (35, 4, 2), (258, 16, 2), (64 * 256, 1, 0), (7, 100, 3), (2000, 16, 1)
    for coefficients, polynomials, beta in tried:
        wanted = {}
        for mu in range(max(1, beta), MOST_ROWS - beta + 1):
            room = [nu for nu in range(1, MOST_COLUMNS // polynomials + 1) if mu * nu + beta >= coefficients]
            if room and min(room) not in wanted.values():
                wanted[mu] = min(room)
        expect(dict(splits(coefficients, polynomials, beta)), wanted, "splits", coefficients, polynomials, beta)
    s = S.Sizes(8, 8, 4, 4, 26, 4, 2, 2)
    every = [s._replace(l=opened) for opened in (27, 26, 28)] + [s._replace(h=7, l=40)]
    expect(unbeaten(every), [every[1], every[3]], "unbeaten sizes")
    return "splits into rows and columns: %d times by trying all" % len(tried)


def test_nodes():
    """Least, mean and most over all sets up to 16 leaves; least and most also by the closed forms of the handbook."""
    done = 0
    for h in range(1, 5):
        for opened in range(1, (1 << h) + 1):
            counts = [len(S.nodes_above(h, chosen)) for chosen in combinations(range(1 << h), opened)]
            expect(extreme_nodes(h, opened), (min(counts), max(counts)), "nodes", h, opened)
            expect(mean_nodes(h, opened), Fraction(sum(counts), len(counts)), "mean of nodes", h, opened)
            done += len(counts)
    for h in DEPTHS:
        for opened in range(1, min(MOST_OPENED, 1 << h) + 1):
            t = opened.bit_length() - 1
            closed = h + opened - 1 - bin(opened - 1).count("1"), (2 << t) - 1 + opened * (h - 1 - t)
            expect(extreme_nodes(h, opened), closed, "closed form", h, opened)
    return "nodes above opened leaves: %d sets counted, closed forms at all depths" % done


def committed(s):
    """The slices that a commitment of the second implementation leaves or takes, and the permutations that it ran."""
    words = [1] * (s.w * s.each), [2] * (s.rows * s.l), [3] * (s.w * s.blinds_each), [4] * (s.eta * s.width)
    lent = bytes(nonce_bytes(s)), bytes(S.SALT_BYTES)
    filled = [0] * (table_bytes(s) // 4), bytes(tree_bytes(s))
    with patch.object(S, "digest", wraps=S.digest) as digest:
        number, table, tree = S.commit(*s.of_commitment, *words, *lent, *filled)
    expect(number, 0, "commit")
    return (*words, *lent, table, tree), sum(S.permutations_for(len(call.args[0])) for call in digest.call_args_list)


def test_costs():
    """What the second implementation hashes and sends at a small size, over all sets of leaves."""
    s = S.Sizes(3, 2, 2, 1, 2, 1, 1, 1)
    slices, count = committed(s)
    expect(permutations_to_commit(s), count, "permutations to commit")
    lengths, counts = [], []
    for chosen in combinations(range(s.leaves), s.l):
        question = S.write_question(S.Question(s, slices[-1][-S.DIGEST_BYTES :], slices[5], [5], [6], list(chosen)))
        number, length, reply = S.open_reply(question, *slices, bytes(S.reply_length(question)[1]))
        expect(number, 0, "open")
        number, count, _ = S.check(question, reply, [0] * s.w)
        expect(number, 0, "check")
        lengths.append(length)
        counts.append(count)
    for found, formula in ((lengths, replies(s)), (counts, permutations_to_check(s))):
        expect(formula, (min(found), Fraction(sum(found), len(found)), max(found)), "bytes or permutations")
    return "bytes and permutations: %d replies, made and checked by the second implementation" % len(lengths)


def selftest():
    shares_tested = test_shares, test_two_answers, test_accepted, test_bits, test_prepared
    for test in (*shares_tested, test_splits, test_nodes, test_costs):
        print(test())
