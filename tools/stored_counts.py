#!/usr/bin/env python3
"""Stored inputs and output of the program `counts`, made by the second implementation.

    tools/stored_counts.py            writes them
    tools/stored_counts.py --check    makes them anew, compares them with what is stored and names what differs

Nothing here runs the proved program: every line is what reference/smallwood.py says. The inputs of the program `cases`
come first, as copies: a program is run in a folder with its own stored inputs alone. Those after them also have the
verdict and the number of permutations that their construction gives.
"""

import sys

sys.dont_write_bytecode = True

from stored_cases import (  # noqa: E402
    Q, S, Sizes, Source, altered, cases, compare_or_write, salt_by, salted, set_entry, simulated, spoiled, whole,
)  # fmt: skip
from cases import HASHED  # noqa: E402  (stored_cases makes it importable)

CRATE = "crates/counts/"


def opened(label, h, values, indices):
    """An accepted input with these leaves opened, of so many values each."""
    eta = min(4, values - 1)
    beta = min(16, (values - eta) // 2)
    s = Sizes(h, values - eta - beta, 1, 1, len(indices), eta, 1, beta)
    return whole(simulated(Source("stored counts " + label), s, salt_by(label), indices=indices))


def leaves_and_nodes():
    """(name, verdict, permutations, input): strings of one, two and three blocks, then leaves near and far apart."""
    for values, blocks in ((2, 1), (17, 1), (18, 2), (51, 2), (52, 3), (68, 3)):
        label = "leaf_of_%d_values" % values
        yield label, 0, blocks + 1, opened(label, 1, values, [0])
    for label, h, values, indices, count in (
        ("two_neighbours", 3, 3, [6, 7], 2 + 1 + 1 + 1),
        ("two_adjacent", 3, 3, [1, 2], 2 + 2 + 1 + 1),
        ("two_far_apart", 3, 3, [0, 7], 2 + 2 + 2 + 1),
        ("four_first", 3, 20, [0, 1, 2, 3], 4 * 2 + 2 + 1 + 1),
        ("four_spread", 3, 20, [0, 2, 4, 6], 4 * 2 + 4 + 2 + 1),
        ("all_but_one", 3, 3, [0, 1, 2, 3, 4, 5, 6], 7 + 4 + 2 + 1),
        ("bound_reached", 12, 52, [4095], 1 * (3 + 12)),
        ("sixty_four_first", 12, 3, list(range(64)), 64 + 63 + 6),
        ("sixty_four_spread", 12, 3, list(range(0, 4096, 64)), 64 + 6 * 64 + 63),
        ("most_permutations", 12, 52, list(range(63, 4096, 64)), 3 * 64 + 6 * 64 + 63),
    ):
        yield label, 0, count, opened(label, h, values, indices)


def one_question():
    """The same of one question with several replies, and of questions that are refused."""
    s, indices = Sizes(4, 30, 1, 2, 3, 4, 2, 10), [3, 8, 9]
    d = simulated(Source("stored counts one question"), s, salt_by("one question"), indices=indices)
    count = 3 * 2 + 2 + 2 + 2 + 1  # strings of 67 + 4 (30 + 10 + 4) bytes, and the nodes above on each level
    question, reply = d.question(), d.reply()

    def of_reply(label, verdict, count, change):
        changed = altered(d, change)
        assert changed.startswith(question), label
        return "one_question_" + label, verdict, count, changed

    def all_wrong(e):
        e.shift_batching(0, [1]).shift_answer(0, [1]).change_value(0, 0, 1)

    yield "one_question", 0, count, whole(d)
    yield of_reply("node", 8, count, set_entry("nodes", -1, bytes(32)))
    yield of_reply("leaf", 8, count, lambda e: e.change_value(2, 43, 1))
    yield of_reply("leaf_batching_and_answer", 8, count, all_wrong)
    yield of_reply("batching", 9, count, lambda e: e.shift_batching(0, [1]))
    yield of_reply("batching_and_answer", 9, count, lambda e: e.shift_batching(3, [1]).shift_answer(1, [1]))
    yield of_reply("answer", 10, count, lambda e: e.shift_answer(1, [1]))
    yield of_reply("element", 3, 0, lambda e: e.leaves[-1][0].__setitem__(-1, Q))
    yield of_reply("node_left_out", 7, 0, lambda e: e.nodes.pop())
    yield of_reply("node_too_many", 7, 0, lambda e: e.nodes.append(bytes(32)))
    yield "one_question_byte_left_out", 7, 0, question + reply[:-1]
    yield "one_question_no_reply", 7, 0, question
    yield "question_bytes_14", 6, 0, question[:14]
    yield "question_root", 8, count, spoiled(whole(d), S.HEADER_BYTES)
    yield "question_salt", 8, count, spoiled(whole(d), S.SALT_AT)
    yield "question_mark", 5, 0, spoiled(whole(d), 0)
    yield "question_depth_0", 1, 0, question[:5] + b"\0" + question[6:] + reply
    yield "question_byte_left_out", 6, 0, question[:-1]
    yield "question_challenge_q", 3, 0, altered(d, set_entry("challenges", 0, Q))
    yield "question_indices_falling", 4, 0, altered(d, set_entry("indices", 0, 10))


def counted():
    """(name, input), what is known of each compared with the second implementation."""
    for label, verdict, data in [*cases(), *salted()]:
        found, count, _ = S.check_input(data)
        assert found == verdict and (count > 0) == (verdict in HASHED), label
        yield label, data
    for label, verdict, count, data in [*leaves_and_nodes(), *one_question()]:
        assert S.check_input(data)[:2] == (verdict, count), (label, S.check_input(data)[:2])
        yield label, data


def files():
    """(path from the repository's root, contents)"""
    stored = list(counted())
    assert len(dict(stored)) == len(stored)
    for label, data in stored:
        yield CRATE + "data/" + label, data
    yield CRATE + "args", "".join(label + "\n" for label, _ in stored).encode()
    yield CRATE + "stdout", b"".join(label.encode() + b"\n" + S.counts_line(data) for label, data in stored)


if __name__ == "__main__":
    compare_or_write(files, CRATE + "data", __doc__)
