#!/usr/bin/env python3
"""Sizes for a product: how many leaves to open, how many bits that gives against whom, and what it costs.

  tools/sizes.py --coefficients 34 --polynomials 4 --bits 40 [--points 2] [--beta 2] [--eta 4]
                               choices of h and of rows by columns that no other choice beats, a line each
  tools/sizes.py --leaves 4096 --columns 256 --bits 40
                               the least number of leaves to open, alone
  --committer trusted          the bits are wanted against a trusted committer alone, not against anyone
  --kappa 16                   the bits are wanted of a proof with this kappa
  --all                        all choices, those that none beats with a mark

  tools/sizes.py --tables      the tables of docs/HANDBOOK.md, "Choosing h, l and eta", as computed
  tools/sizes.py --check       compares these, and the sizes in the benchmark's table of worked products; names each
                               cell that differs, and then has exit status 1
  tools/sizes.py --choices     the sizes of the worked products, as the benchmark measures them
  tools/sizes.py --selftest    the formulas against counting at small sizes, and whether --check finds changed cells

Points are those of the one question that a commitment answers; beta, unless given, is their number. Every line has the
bits against a trusted committer and against anyone, both with kappa, the eta term, and the least of these three, which
are the bits. Exit status 1 where no sizes hold what is wanted, 2 where words are wrong or a table is missing.
"""

import sys
from argparse import ArgumentTypeError

import paths  # noqa: F401  (makes the module below importable)
import sizes_tables as T
import sizing
from arguments import Arguments
from sizing import MOST_COLUMNS, MOST_ETA, MOST_ROWS, S
from tables import Malformed

MODES = "tables", "check", "choices", "selftest"
WANTED = "bits", "committer", "kappa"
PLANNED = "coefficients", "polynomials", "points", "beta", "eta", "all"
COUNTED = "leaves", "columns"
WHOM = {sizing.TRUSTED: "a trusted committer", sizing.ANYONE: "whoever committed"}


# ---- A planner's table ------------------------------------------------------------------------------


def least_opened(options, leaves, columns):
    return sizing.least_opened(leaves, columns, max(0, options.bits - options.kappa), options.committer)


def planned(options):
    """The sizes to choose from: for each split and depth the least number of leaves, whatever the eta term is."""
    for mu, nu in sizing.splits(options.coefficients, options.polynomials, options.beta):
        for h in sizing.DEPTHS:
            opened = least_opened(options, 1 << h, nu * options.polynomials)
            if opened is not None:
                yield S.Sizes(h, mu, nu, options.polynomials, opened, options.eta, options.points, options.beta)


GROUPS = {
    "sizes": ("h", "mu", "nu", "l", "width"),
    "bits": ("trusted", "anyone", "eta term", "least"),
    "bytes of a reply": ("bound", "most", "mean"),
    "bytes kept": ("table", "tree", "nonces"),
    "permutations": ("commit", "check, least", "mean", "most"),
}


def cells(s, kappa):
    _, mean, most = sizing.replies(s)
    yield from (s.h, s.mu, s.nu, s.l, s.width)
    yield from T.bits_cells(s, kappa)
    yield from (S.reply_bound(s), most, round(mean))
    yield from (sizing.table_bytes(s), sizing.tree_bytes(s), sizing.nonce_bytes(s))
    least, mean, most = sizing.permutations_to_check(s)
    yield from (sizing.permutations_to_commit(s), least, T.one_decimal(mean), most)


def show_lines(lines, kappa):
    """(sizes, whether they are marked)"""
    rows = [[name for names in GROUPS.values() for name in names]] + [list(map(str, cells(s, kappa))) for s, _ in lines]
    widths = [max(map(len, column)) + 2 for column in zip(*rows)]
    at = 0
    for group, names in GROUPS.items():
        print(group.rjust(sum(widths[at : at + len(names)])), end="")
        at += len(names)
    print()
    for row, marked in zip(rows, [False] + [marked for _, marked in lines]):
        print("".join(cell.rjust(width) for cell, width in zip(row, widths)) + " *" * marked)


def limits(options):
    most = sizing.MOST_OPENED + options.kappa
    if options.committer == sizing.ANYONE and options.bits > most:
        return "against whoever committed there are no more than %d bits" % most
    return "docs/HANDBOOK.md has the ranges"


def show_choices(options):
    found = list(planned(options))
    every = [s for s in found if sizing.reaches(sizing.prepared(s.rows, s.eta), options.bits)]
    left_out = "left out: %d choices, since their eta term is below %d bits" % (len(found) - len(every), options.bits)
    if not every:
        return "sizes.py: no sizes of the library hold that (%s)" % (left_out if found else limits(options))
    kept = sizing.unbeaten(every)
    print(about(options))
    show_lines([(s, s in kept) for s in every] if options.all else [(s, False) for s in kept], options.kappa)
    better = "better in mean reply, commit or mean check, and in none of them worse"
    if options.all:
        print("* no other line is " + better)
    elif len(kept) < len(every):
        print("not shown: %d choices, since another is %s (--all)" % (len(every) - len(kept), better))
    if len(every) < len(found):
        print(left_out)
    return 0


def about(options):
    held = "%d polynomials of %d coefficients, m = %d, beta = %d, eta = %d, kappa = %d; at least %d bits against %s"
    return held % (
        options.polynomials, options.coefficients, options.points, options.beta, options.eta, options.kappa,
        options.bits, WHOM[options.committer],
    )  # fmt: skip


# ---- The program ------------------------------------------------------------------------------------


def show_least(options):
    opened = least_opened(options, options.leaves, options.columns)
    rows = [n for n in range(1, MOST_ROWS + 1) if sizing.reaches(sizing.prepared(n, MOST_ETA), options.bits)]
    if opened is None:
        print("none")
    elif not rows:
        print("none: no eta term has %d bits" % options.bits)
    else:
        s = S.Sizes(options.leaves.bit_length() - 1, 1, options.columns, 1, opened, 1, 1)
        found = opened, *T.bits_cells(s, options.kappa)[:2]
        print("l = %d: %s bits against a trusted committer, %s against whoever committed" % found)
        print("the eta term has %d with eta = %d and up to %d rows mu + beta" % (options.bits, MOST_ETA, rows[-1]))


def text_of(document):
    try:
        return document.read_text(encoding="utf-8")
    except (OSError, UnicodeDecodeError) as error:
        raise Malformed("%s: %s" % (document, error)) from None


def show_tables():
    _, times = T.measured(text_of(T.BENCHMARKS))
    print("\n\n".join(map(str, T.handbook_tables(times))))
    print("\n" + "\n".join(T.phrases(times)))


def check():
    found = list(T.differences(text_of(T.HANDBOOK), text_of(T.BENCHMARKS)))
    for line in found:
        print(line, file=sys.stderr)
    return 1 if found else 0


def selftest():
    sizing.selftest()
    if T.BENCHMARKS.exists():
        print(T.test_comparing(text_of(T.HANDBOOK), text_of(T.BENCHMARKS)))
    else:
        print("comparison: left out, since there is no %s, as in a release" % T.BENCHMARKS.name)


def show_words():
    for product in T.PRODUCTS:
        for target, s in T.choices(product):
            print(",".join(map(str, (product.name, *target, *s))))


def number_between(low, high):
    def read(word):
        if not (word.isascii() and word.isdigit()) or not low <= int(word) <= high:
            raise ArgumentTypeError("'%s' is no whole number from %d to %d" % (word, low, high))
        return int(word)

    return read


def committer(word):
    if word not in sizing.COMMITTERS:
        raise ArgumentTypeError("'%s' is neither %s nor %s" % (word, *sizing.COMMITTERS))
    return word


def words_known():
    parser = Arguments(__doc__)
    for mode in (*MODES, "all"):
        parser.add_argument("--" + mode, action="store_true")
    for name, low, high in (
        ("coefficients", 1, MOST_ROWS * MOST_COLUMNS), ("polynomials", 1, MOST_COLUMNS), ("points", 1, 8),
        ("beta", 0, 16), ("eta", 1, MOST_ETA), ("leaves", 2, 4096), ("columns", 1, MOST_COLUMNS), ("bits", 0, 128),
        ("kappa", 0, S.MAX_KAPPA),
    ):  # fmt: skip
        parser.add_argument("--" + name, type=number_between(low, high), metavar="N", help="%d to %d" % (low, high))
    parser.add_argument("--committer", type=committer, metavar="WHO", help="%s or %s" % sizing.COMMITTERS)
    return parser


def read_words():
    parser = words_known()
    options = parser.parse_args()
    given = {name for name, value in vars(options).items() if value is not None and value is not False}
    modes, others = given & set(MODES), given - set(WANTED)
    if len(given) != 1 if modes else others - set(COUNTED) and others - set(PLANNED):
        parser.error("these words do not go together: %s" % " ".join("--" + name for name in sorted(given)))
    needed = () if modes else ("leaves", "columns", "bits") if given & set(COUNTED) else PLANNED[:2] + ("bits",)
    if not given.issuperset(needed):
        parser.error("it needs all of %s" % " ".join("--" + name for name in needed))
    if options.leaves and options.leaves & options.leaves - 1:
        parser.error("--leaves is a power of two")
    options.points = options.points or 2
    options.beta = options.points if options.beta is None else options.beta
    options.eta = options.eta or MOST_ETA
    options.kappa = options.kappa or 0
    options.committer = options.committer or sizing.ANYONE
    return options


def main():
    options = read_words()
    try:
        if options.tables:
            show_tables()
        elif options.check:
            return check()
        elif options.choices:
            show_words()
        elif options.selftest:
            selftest()
        elif options.leaves:
            show_least(options)
        else:
            return show_choices(options)
    except Malformed as error:
        print("sizes.py: %s" % error, file=sys.stderr)
        return 2
    except sizing.Different as error:
        return "sizes.py: %s" % error
    return 0


if __name__ == "__main__":
    sys.exit(main())
