"""The handbook's tables for choosing sizes, as computed, and the benchmark's table of worked products: both compared
with what stands in the documents, cell by cell.

Times are those of the benchmark's table, all other cells are computed by sizing.py.
"""

from collections import namedtuple
from pathlib import Path

import sizing
from sizing import ANYONE, S, TRUSTED
from tables import Malformed, Table, find, number

DOCS = Path(__file__).resolve().parent.parent / "docs"
HANDBOOK, BENCHMARKS = DOCS / "HANDBOOK.md", DOCS / "BENCHMARKS.md"
EXAMPLES = DOCS.parent / "examples"

DEPTHS = range(8, 13)  # that the benchmark measures
MINUS = "\u2212"
PERMUTATION = 0.31e-6  # seconds, as the handbook has it

# What is wanted of sizes: so many bits, against that committer.
Target = namedtuple("Target", "committer bits")
TRUSTED_BITS, ANYONES_BITS = (64, 80, 100), (40, 60)
TARGETS = [Target(TRUSTED, bits) for bits in TRUSTED_BITS] + [Target(ANYONE, bits) for bits in ANYONES_BITS]

# `name` is that of the benchmark's table, `depths` those in the handbook; `worked` has the target and the depth of the
# sizes that are worked through.
Product = namedtuple("Product", "name title coefficients mu nu w eta m beta depths worked", defaults=[None])
FOUR, SIXTEEN = "four polynomials of 34 coefficients", "sixteen polynomials of 258 coefficients"
SMALL, TALL, WIDE = PRODUCTS = (
    Product("4x34", FOUR, 34, 11, 3, 4, 4, 2, 2, (8, 10, 12), (Target(ANYONE, 40), 10)),
    Product("16x258", SIXTEEN, 258, 43, 6, 16, 4, 2, 2, (9, 10, 11, 12), (Target(ANYONE, 60), 12)),
    Product("16x258", SIXTEEN, 258, 16, 16, 16, 4, 2, 2, (10, 11, 12)),
)
WORKED = [p for p in PRODUCTS if p.worked]


def sizes_for(product, target, h):
    """With the least number of leaves; None where there is none."""
    opened = sizing.least_opened(1 << h, product.w * product.nu, target.bits, target.committer)
    return opened and S.Sizes(h, product.mu, product.nu, product.w, opened, product.eta, product.m, product.beta)


def choices(product):
    """(target, sizes) for all targets and depths that have some."""
    every = ((target, sizes_for(product, target, h)) for target in TARGETS for h in DEPTHS)
    return ((target, s) for target, s in every if s)


def worked_sizes(product):
    return sizes_for(product, *product.worked)


# ---- How numbers are written --------------------------------------------------------------------------


def grouped(whole):
    return "{:,}".format(round(whole))


def one_decimal(x):
    return "%.1f" % round(float(x), 1)


def power(exponent):
    return "2^" + one_decimal(exponent).replace("-", MINUS)


def time(microseconds):
    return one_decimal(microseconds) if microseconds < 100 else grouped(microseconds)


def listed(values):
    return ", ".join(map(grouped, values))


def enumerated(values):
    *first, last = map(str, values)
    return "%s and %s" % (", ".join(first), last)


def bits_cells(s, kappa=0):
    """Against a trusted committer and against anyone, the eta term, and the least of these."""
    shares = sizing.shares(s, kappa)
    return [one_decimal(sizing.bits(share)) for share in (*shares, max(shares))]


# ---- The benchmark's table ----------------------------------------------------------------------------

COMPUTED = "product", "committer", "bits", *S.Sizes._fields, "reply bound", "mean reply", "commit permutations"
TIMES = "commit", "open", "check"
BENCHED = "| product | committer |"


def benched_cells(product, target, s):
    """Those of the benchmark's row under COMPUTED."""
    lengths = S.reply_bound(s), round(sizing.replies(s)[1])
    return list(map(str, (product.name, *target, *s, *lengths, sizing.permutations_to_commit(s))))


def least_time(cell):
    """Of `least (median)`."""
    return number(cell.split(" (")[0], float)


def measured(text):
    """The benchmark's table, and the least times in it, by `key`."""
    table = find(text, BENCHED)
    at = [table.column(name) for name in ("product", "mu", "committer", "bits", "h")]
    times = [table.column(name) for name in TIMES]
    return table, {tuple(row[i] for i in at): [least_time(row[i]) for i in times] for row in table.rows}


def key(product, target, s):
    return product.name, str(s.mu), target.committer, str(target.bits), str(s.h)


def benchmark_differences(table):
    """Cells of the benchmark's table that are not as computed."""
    wanted = [(p, target, s) for p in PRODUCTS for target, s in choices(p)]
    if len(table.rows) != len(wanted):
        yield "%s: %d rows of worked products, not %d" % (BENCHMARKS.name, len(table.rows), len(wanted))
        return
    for line, row, (product, target, s) in zip(table.at, table.rows, wanted):
        for name, cell in zip(COMPUTED, benched_cells(product, target, s)):
            yield from difference(BENCHMARKS, line, row[:4], name, row[table.column(name)], cell)
        least, _, most = sizing.permutations_to_check(s)
        if not least <= number(row[table.column("check permutations")], float) <= most:
            yield "%s:%d: check permutations are not between %d and %d" % (BENCHMARKS.name, line, least, most)


# ---- The handbook's tables ------------------------------------------------------------------------------


def least_table():
    targets = [Target(TRUSTED, bits) for bits in (40, *TRUSTED_BITS)]
    targets += [Target(ANYONE, bits) for bits in (20, 30, 40, 50, 60)]
    rows = []
    for leaves in (256, 1024, 4096):
        for columns in (1, 16, 64, 256):
            found = [sizing.least_opened(leaves, columns, target.bits, target.committer) for target in targets]
            if any(found):
                rows.append([str(leaves), str(columns), *(str(opened or "none") for opened in found)])
    return Table(["N", "wν", *("%s = %d" % ("kb"[t.committer == ANYONE], t.bits) for t in targets)], rows)


def eta_table():
    """A row for each number of rows, those of the worked products among them."""
    numbers = sorted({1, 8, 32, 64} | {p.mu + p.beta for p in PRODUCTS})
    rows = [[str(n), *(one_decimal(sizing.bits(sizing.prepared(n, eta))) for eta in range(1, 5))] for n in numbers]
    return Table(["rows μ + β", "η = 1", "2", "3", "4"], rows)


def worked_cells(s):
    yield "h, μ, ν, w, ℓ, η, β, m", ", ".join(map(str, (*s[:6], s.beta, s.m)))
    yield "width", str(s.width)
    lent = s.w * s.each, s.rows * s.l, s.w * s.blinds_each, s.eta * s.width
    yield "coefficients, tails, blinds, masks", listed(4 * words for words in lent)
    yield "nonces", grouped(sizing.nonce_bytes(s))
    yield "table", grouped(sizing.table_bytes(s))
    yield "tree", grouped(sizing.tree_bytes(s))
    yield "question", grouped(S.question_bytes(s))
    shortest, mean, longest = sizing.replies(s)
    yield "reply, by the bound ℓh", grouped(S.reply_bound(s))
    yield "reply, least, mean, most", listed((shortest, mean, longest))
    yield "permutations to commit", grouped(sizing.permutations_to_commit(s))
    yield "permutations to check", check_range(s)
    trusted, anyone, eta, least = bits_cells(s)
    yield "k, a trusted committer", trusted
    yield "b, whoever committed", anyone
    yield "η term", eta
    yield "**the bits**", "**%s**" % least
    yield "degree term", power(sizing.degree_term(s)) + " (says nothing)" * (sizing.degree_term(s) >= 0)


def check_range(s):
    least, mean, most = sizing.permutations_to_check(s)
    return "%d to %d, mean %s" % (least, most, one_decimal(mean))


def by_worked(name, cells):
    """A table with a column for each of the worked sizes."""
    columns = [list(cells(worked_sizes(p))) for p in WORKED]
    rows = [[name, *(column[i][1] for column in columns)] for i, (name, _) in enumerate(columns[0])]
    return Table([name, *(p.title for p in WORKED)], rows)


def proof_cells(s):
    """In "What is hashed for a proof", by its formulas."""
    before = 1 + S.proof_question_bytes(s) + S.answer_bytes(s)
    blocks = before // S.RATE_BYTES
    each = S.permutations_for(before + S.COUNTER_BYTES) - blocks
    drawn = S.permutations_for(S.DIGEST_BYTES + 8 * s.l - 1) - 1
    yield "question of a proof", grouped(S.proof_question_bytes(s))
    yield "the prover's buffer", grouped(S.proof_bound(s))
    yield "n, f, t, e", listed((before, blocks, each, drawn))
    yield "permutations of a proof's check beside those of the reply's", grouped(1 + blocks + each + drawn)
    trusted, anyone, eta, least = bits_cells(s, S.MAX_KAPPA)
    three = ", ".join((trusted, anyone, eta))
    yield "with κ = %d: a trusted committer, whoever committed, η term" % S.MAX_KAPPA, three
    yield "**the bits** of a proof, with κ = %d" % S.MAX_KAPPA, "**%s**" % least


def memory(s):
    return sizing.table_bytes(s) + sizing.tree_bytes(s) + sizing.nonce_bytes(s)


def product_table(product, times):
    """The choices of the product, with the benchmark's times."""
    head = ["wanted (%d rows, %d columns)" % (product.mu, product.nu), "h", "ℓ", "k", "b", "η term", "the bits"]
    head += ["reply, bound", "reply, most", "reply, mean", "kept", "permutations to commit", "permutations to check"]
    head += ["µs to commit", "µs to open", "µs to check"]
    rows = []
    for target, s in choices(product):
        if s.h in product.depths:
            lengths = S.reply_bound(s), *reversed(sizing.replies(s)[1:]), memory(s)
            hashed = grouped(sizing.permutations_to_commit(s)), check_range(s)
            found = times.get(key(product, target, s))
            if found is None:
                raise Malformed("no row for %s" % " ".join(key(product, target, s)))
            row = ["%d, %s" % (target.bits, target.committer), str(s.h), str(s.l), *bits_cells(s)]
            rows.append([*row, *map(grouped, lengths), *hashed, *map(time, found)])
    return Table(head, rows)


def handbook_tables(times):
    worked = by_worked("Worked sizes", worked_cells), by_worked("Worked sizes, a proof", proof_cells)
    return [least_table(), eta_table(), *worked, *(product_table(p, times) for p in PRODUCTS)]


# ---- The handbook's sentences with numbers -----------------------------------------------------------


def named(s):
    return "h = %d, wν = %d, ℓ = %d" % (s.h, s.columns, s.l)


def span(numbers, form="%.2f"):
    """`least to most`, or one number where both are written alike."""
    ends = form % min(numbers), form % max(numbers)
    return " to ".join(dict.fromkeys(ends))


def bound_phrases():
    alone = sizing.best(sizing.sum_of_terms, 1, 1, 0)
    blinded = sizing.best(sizing.sum_of_terms, 2, 1, 1)
    yield "it is least, %s, at %s, μ = 1, β = 0, η = 4" % (power(sizing.sum_of_terms(alone)), named(alone))
    yield "%s, at %s, μ = β = 1, η = 4" % (power(sizing.sum_of_terms(blinded)), named(blinded))
    most, one = (2 * PERMUTATION * 2 ** -sizing.guessed(rows, 1) for rows in (64, 1))
    rest = "%.0f seconds of one core with 64 rows and %.0f minutes with one row, at %.2f microseconds"
    yield rest % (most, one / 60, 1e6 * PERMUTATION)


def proof_phrases():
    """In "Proofs without a conversation"."""
    kappa = S.MAX_KAPPA
    few = [
        sizing.least_opened(4096, 256, bits - saved, committer)
        for committer, bits in ((TRUSTED, 80), (ANYONE, 40))
        for saved in (0, kappa)
    ]
    yield (
        "for 80 bits at N = 4096 and wν = 256 it takes %d leaves with κ = 0 and %d with κ = 16 against a trusted "
        "committer, and for 40 bits %d and %d against whoever committed" % tuple(few)
    )
    alone, blinded = (sizing.best(lambda s: sizing.larger_term(s, kappa), *rows) for rows in ((1, 1, 0), (2, 1, 1)))
    yield "T · %s (%s, μ = 1, β = 0, η = 4, κ = 16)" % (power(sizing.larger_term(alone, kappa)), named(alone))
    term = power(sizing.larger_term(blinded, kappa))
    yield "T · %s (wν = %d, ℓ = %d, μ = β = 1" % (term, blinded.columns, blinded.l)


EARLIER = S.Sizes(12, 8, 4, 4, 11, 4, 2, 2)  # those of examples/proof_forger.c


def earlier_phrases():
    """Of sizes that the handbook once called 80 and 128 bits."""
    yield "12, 8, 4, 4, 11: k is %s, b is %s" % tuple(bits_cells(EARLIER)[:2])
    yield "ℓ = 18: k is %s, b is %s" % tuple(bits_cells(EARLIER._replace(l=18))[:2])


def example_phrases():
    """(example, what has to stand in it): its sizes, and the bits in its comment."""
    for name, s, comments in (
        ("sides.h", worked_sizes(SMALL), ("%s   a trusted", " %s   whoever", "%s   all challenges")),
        ("proof_forger.c", EARLIER, ("k = %s", "b = %s")),
    ):
        values = zip(("H", "MU", "NU", "W", "L", "ETA", "BETA", "M"), (*s[:6], s.beta, s.m))
        yield name, "#define SIZES " + ", ".join("%s = %d" % value for value in values) + "\n"
        yield from ((name, comment % found) for comment, found in zip(comments, bits_cells(s)))


def example_texts():
    return {name: (EXAMPLES / name).read_text(encoding="utf-8") for name, _ in example_phrases()}


def example_differences(texts):
    for name, phrase in example_phrases():
        if phrase not in texts[name]:
            yield "%s: there is no '%s', as computed" % (name, phrase.strip())


def worked_phrases():
    worked = [worked_sizes(p) for p in WORKED]
    plain = [s._replace(beta=0) for s in worked]
    bounds, tables = map(S.reply_bound, plain), map(sizing.table_bytes, plain)
    yield "the reply's bound is %s and %s bytes, the table %s and %s" % (*map(grouped, bounds), *map(grouped, tables))
    repetitions = [S.reply_bytes(s, 0) - S.reply_bytes(s._replace(eta=s.eta - 1), 0) for s in worked]
    means = [sizing.replies(s)[1] for s in worked]
    yield "%s and %s bytes of mean replies of %s and %s" % (*map(grouped, repetitions), *map(grouped, means))
    least = min(sizing.degree_term(s) for p in PRODUCTS for _, s in choices(p))
    yield "it is at least %s at every line of the tables below" % power(least)


def at_depths(product, target, of):
    """What `of` says of the sizes for that target, for the handbook's depths."""
    found = [of(s) for other, s in choices(product) if other == target and s.h in product.depths]
    return "%s at h = %s" % (enumerated(found), enumerated(product.depths))


def opened_phrases():
    """What becomes of the other committer's bits, and of the number of leaves, as trees are deeper."""
    yield "for k = 80 b is " + at_depths(SMALL, Target(TRUSTED, 80), lambda s: bits_cells(s)[1])
    yield "for b = 40 ℓ is " + at_depths(SMALL, Target(ANYONE, 40), lambda s: s.l)


def mean_reply_and_times(product, times):
    """{(target, h): mean bytes, microseconds to commit, to open, to check}"""
    rows = ((target, s, times[key(product, target, s)]) for target, s in choices(product))
    return {(target, s.h): (float(sizing.replies(s)[1]), *found) for target, s, found in rows}


def deeper_phrase(costs, committer, low, high):
    """What more levels cost and save."""
    lower = {target: cost for (target, h), cost in costs.items() if (target.committer, h) == (committer, low)}
    pairs = [(cost, costs[target, high]) for target, cost in lower.items()]
    replies, commits = ([after[i] / before[i] for before, after in pairs] for i in (0, 1))
    found = low, high, span(replies), span(commits, "%.1f")
    return "from h = %d to %d the mean reply has %s times the bytes and a commit takes %s times the time" % found


def split_phrases(wide, tall):
    """What the second split takes of the first, where both have choices."""
    pairs = [(wide[at], tall[at]) for at in wide if at in tall]
    reply, commit, open_, check = (span([after[i] / before[i] for before, after in pairs]) for i in range(4))
    times = "%s to commit, %s to open and %s to check" % (commit, open_, check)
    yield "%s of the mean reply, and of the time %s" % (reply, times)
    most = len(TARGETS) * len(DEPTHS)
    yield "of %d targets and depths it has an ℓ for %d, the other for %d" % (most, len(tall), len(wide))


def best_split(product, target, s):
    """Whether no other split of the same depth beats this one."""
    every = sizing.splits(product.coefficients, product.w, product.beta)
    found = (sizes_for(product._replace(mu=mu, nu=nu), target, s.h) for mu, nu in every)
    return s in sizing.unbeaten([other for other in found if other])


def choice_phrase():
    counts = []
    for product in WORKED:
        found = [best_split(product, *choice) for choice in choices(product)]
        counts += sum(found), len(found)
    return "at %d of %d lines of the first product, and at %d of %d of the second" % tuple(counts)


def work_phrase():
    days, years = (PERMUTATION * 2**bits / 86400 / unit for bits, unit in ((40, 1), (60, 365)))
    return "40 bits are %.0f days of one core and 60 are %s years" % (days, grouped(round(years, -2)))


def phrases(times):
    small, tall, wide = (mean_reply_and_times(product, times) for product in PRODUCTS)
    yield from bound_phrases()
    yield from proof_phrases()
    yield from earlier_phrases()
    yield from worked_phrases()
    yield work_phrase()
    yield choice_phrase()
    yield from opened_phrases()
    yield deeper_phrase(small, TRUSTED, 8, 10)
    yield deeper_phrase(small, TRUSTED, 10, 12)
    yield deeper_phrase(small, ANYONE, 8, 10)
    yield deeper_phrase(tall, TRUSTED, 10, 11)
    yield deeper_phrase(tall, TRUSTED, 11, 12)
    yield deeper_phrase(tall, ANYONE, 9, 10)
    yield from split_phrases(wide, tall)


# ---- Comparing --------------------------------------------------------------------------------------


def difference(document, line, row, name, stands, wanted):
    if stands != wanted:
        where = "%s:%d, row %s, column '%s'" % (document.name, line, " | ".join(row), name)
        yield "%s: '%s' stands there, '%s' is computed" % (where, stands, wanted)


def table_differences(text, wanted):
    stored = find(text, "| %s |" % wanted.header[0])
    if stored.header != wanted.header:
        yield "%s:%d: the header is not %s" % (HANDBOOK.name, stored.at[0] - 2, wanted.header)
    elif len(stored.rows) != len(wanted.rows):
        yield "%s:%d: %d rows, not %d" % (HANDBOOK.name, stored.at[0], len(stored.rows), len(wanted.rows))
    else:
        for line, row, computed in zip(stored.at, stored.rows, wanted.rows):
            for name, cell, other in zip(wanted.header, row, computed):
                yield from difference(HANDBOOK, line, computed[:3], name, cell, other)


def differences(handbook, benchmarks):
    """Everything in the two texts that is not as computed."""
    table, times = measured(benchmarks)
    yield from benchmark_differences(table)
    for wanted in handbook_tables(times):
        yield from table_differences(handbook, wanted)
    yield from missing_phrases(handbook, phrases(times))
    yield from example_differences(example_texts())


def missing_phrases(handbook, computed):
    for phrase in computed:
        if phrase not in handbook:
            yield "%s: there is no '%s', as computed" % (HANDBOOK.name, phrase)


# ---- That the comparison finds what is changed ---------------------------------------------------------


def with_cell(text, table, row, column, cell):
    """The text with another cell in that row of the table that it has."""
    lines = text.splitlines()
    cells = list(table.rows[row])
    cells[column] = cell
    lines[table.at[row] - 1] = "| %s |" % " | ".join(cells)
    return "\n".join(lines)


def changed_cells(text, table, names):
    """(name, the text with that cell changed) for every cell of these columns."""
    for row in range(len(table.rows)):
        for name in names:
            column = table.column(name)
            yield name, with_cell(text, table, row, column, table.rows[row][column] + "0")


def expect_named(found, name):
    sizing.expect([name in line for line in found], [True], "a changed cell under '%s'" % name, found)


def test_comparing(handbook, benchmarks):
    """Every computed cell, changed alone, is named alone; a sentence that is taken out is missed."""
    done = 0
    table, times = measured(benchmarks)
    for name, text in changed_cells(benchmarks, table, COMPUTED):
        expect_named(list(benchmark_differences(find(text, BENCHED))), "column '%s'" % name)
        done += 1
    for wanted in handbook_tables(times):
        stored = find(handbook, "| %s |" % wanted.header[0])
        for name, text in changed_cells(handbook, stored, stored.header):
            expect_named(list(table_differences(text, wanted)), "column '%s'" % name)
            done += 1
    every = list(phrases(times))
    for phrase in every:
        expect_named(list(missing_phrases(handbook.replace(phrase, ""), every)), phrase)
    texts, in_examples = example_texts(), list(example_phrases())
    for name, phrase in in_examples:
        without = {**texts, name: texts[name].replace(phrase, "")}
        expect_named(list(example_differences(without)), phrase.strip())
    found = done, len(every), len(in_examples)
    return "comparison: %d cells changed and named one by one, %d sentences and %d lines of examples missed" % found
