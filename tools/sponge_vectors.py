#!/usr/bin/env python3
"""Writes crates/vectors/stdout, what the program `vectors` must print, from Python's hashlib.

  tools/sponge_vectors.py           write the file
  tools/sponge_vectors.py --check   compare it, and fail where it differs

Each line is an output of SHAKE256 in hexadecimal. 32 bytes: of the empty message, of 200 bytes 0xa3, of the first n
bytes of the pattern, for n from 0 to 339, and of leaf 4095's string with 17, 18, 51 and 52 values. DRAWN bytes of the
pattern's first n, for n in STRINGS. 137 bytes of its first p + t, for a prefix p in PREFIXES and a tail t in TAILS.
Byte i of the pattern is (7 i + 3) mod 256; values and nonce of a leaf are its first bytes, the salt is its last 32.
"""

import hashlib
import pathlib
import sys

import paths  # noqa: F401  (makes the module below importable)
from arguments import only_check

STDOUT = pathlib.Path(__file__).resolve().parent.parent / "crates" / "vectors" / "stdout"

# NIST's published examples for FIPS 202: SHAKE256 of 0 bits and of 1600 bits, the first 32 bytes of each.
PUBLISHED = [
    (b"", "46b9dd2b0ba88d13233b3feb743eeb243fcd52ea62b81b82b50c27646ed5762f"),
    (b"\xa3" * 200, "cd8a920ed141aa0407a22d59288652e9d9f1a7ee0c1e7c1ca699424da84a904d"),
]

LONGEST = 339  # the longest leaf string
STRINGS = (0, 97, 136, LONGEST)  # 97: a node string
DRAWN = (1, 2, 31, 32, 33, 96, 135, 136, 137, 272, 544)
PREFIXES = (0, 132, 135, 136, 137, 272)
TAILS = (4, 135, 136)


def draw(message, size):
    return hashlib.shake_256(message).hexdigest(size)


def digest(message):
    return draw(message, 32)


def leaf_string(salt, index, values_and_nonce):
    return b"\x00" + salt + index.to_bytes(2, "little") + values_and_nonce


def main():
    check = only_check(__doc__)
    for message, published in PUBLISHED:
        if digest(message) != published:
            sys.exit("hashlib disagrees with a published example of %d bytes" % len(message))
    pattern = bytes((7 * i + 3) % 256 for i in range(408))
    leaves = [leaf_string(pattern[-32:], 4095, pattern[: 4 * values + 32]) for values in (17, 18, 51, 52)]
    if [len(leaf) for leaf in leaves] != [135, 139, 271, 275]:
        sys.exit("a leaf's string has another length than was meant")
    lines = [published for _, published in PUBLISHED]
    lines += [digest(pattern[:n]) for n in range(LONGEST + 1)]
    lines += [digest(leaf) for leaf in leaves]
    lines += [draw(pattern[:n], size) for n in STRINGS for size in DRAWN]
    lines += [draw(pattern[: p + t], 137) for p in PREFIXES for t in TAILS]
    text = "".join(line + "\n" for line in lines)
    if not check:
        STDOUT.write_text(text)
    elif not STDOUT.is_file() or STDOUT.read_text() != text:
        sys.exit("%s is not what hashlib gives" % STDOUT)


if __name__ == "__main__":
    main()
