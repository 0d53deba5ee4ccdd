#!/usr/bin/env python3
"""Runs the test vectors against a shared library that has the entries of smallwood.h.

    run.py LIBRARY.so [FILE.json ...]

Without files it takes all that stand beside it. It prints each difference, a line for each file, and a last line
`N passed, M failed`. Exit status 1 after a difference; 2 for wrong words, a library without the entries, or a file that
it does not understand. It needs Python 3.9 and nothing else. README.md says what the fields mean.
"""

import ctypes
import json
import struct
import sys
from functools import partial
from pathlib import Path

from strings import string_differences  # beside this file

ALGORITHM, VERSION = "SmallWood polynomial commitment, q = 4294967291, SHAKE256 cut to 32 bytes", 3
PREFIX = "smallwood_"  # of the entries' names in the library

# The parameters of each entry in their order. A name alone is a 32-bit number, NAME:SIZE a slice that is read,
# NAME=SIZE one that is written, of elements of SIZE bytes, and its length follows; NAME=8 is one 64-bit number.
COMMITTED = "coefficients:4 tails:4 blinds:4 masks:4 table:4 nonces:1 salt:1 tree:1"
ENTRIES = {
    "commit": "h mu nu w l eta beta coefficients:4 tails:4 blinds:4 masks:4 nonces:1 salt:1 table=4 tree=1",
    "reply_length": "question:1 length=8",
    "permutations": "question:1 count=8",
    "open": "question:1 " + COMMITTED + " reply=1 length=8",
    "check": "question:1 reply:1 values=1",
    "prove": "question:1 kappa limit " + COMMITTED + " proof=1 length=8",
    "check_proof": "question:1 kappa proof:1 values=1",
    "interpolate": "points:4 values:4 coefficients=4",
}

HEAD = "algorithm entry questionVersion generator fields numberOfTests notes testGroups"
SIZES = {"commit": "h mu nu w l eta beta", "interpolate": "points"}  # of a group; all others have m besides
TYPES = {1: (ctypes.c_uint8, "B"), 4: (ctypes.c_uint32, "I"), 8: (ctypes.c_uint64, "Q")}
GUARD = {size: b"\x5a" * (63 if size == 1 else 64) for size in TYPES}  # around each slice: bytes at an odd address
PATTERN = b"\xff"  # what a slice that is to be written holds before: words that are no elements
UNCHANGED = "unchanged"


def expect(holds, text):
    """A file is as this program knows it, or it is refused: no field and no entry is passed over."""
    if not holds:
        raise ValueError(text)


def expect_fields(what, found, wanted):
    expect(isinstance(found, dict) and set(found) == set(wanted.split()), "%s: not the fields %s" % (what, wanted))


def number_in(value, size=4):
    expect(type(value) is int and 0 <= value < 256**size, "no number of %d bytes: %.40r" % (size, value))
    return value


def bytes_in(value, size=1):
    """A slice of elements of this size, as bytes."""
    data = bytes.fromhex(value)
    expect(len(data) % size == 0, "no elements of %d bytes: %.40r" % (size, value))
    return data


class Slice:
    """What is lent for a slice, between guards. In files words have the lowest byte first, here the machine's order."""

    def __init__(self, data, size):
        self.guard, (kind, code) = GUARD[size], TYPES[size]
        guarded = self.guard + data + self.guard
        self.form = "<%d%s" % (len(guarded) // size, code)
        self.memory = (kind * (len(guarded) // size))(*struct.unpack(self.form, guarded))
        self.pointer = ctypes.byref(self.memory, len(self.guard)) if data else None  # NULL for an empty slice

    def differs_at(self, data):
        """None, or the first byte that is not as in these data; below 0 and from their end on stand the guards."""
        found, wanted = struct.pack(self.form, *self.memory), self.guard + data + self.guard
        if found == wanted:
            return None
        return next((at for at, (a, b) in enumerate(zip(found, wanted)) if a != b), len(found)) - len(self.guard)


def parameters(entry):
    """(name, mark, bytes of an element) of each parameter."""
    for word in ENTRIES[entry].split():
        mark = ":" if ":" in word else "=" if "=" in word else ""
        name, size = word.split(mark) if mark else (word, 4)
        yield name, mark, int(size)


def contents(name, mark, size, inputs, outputs):
    """What a slice has to hold before and after the call."""
    if mark == ":":
        data = bytes_in(inputs[name], size)
        return data, data
    before = PATTERN * (8 if size == 8 else size * number_in(inputs[name + "_length"]))
    if outputs == UNCHANGED:
        return before, before
    new = number_in(outputs[name], 8).to_bytes(8, "little") if size == 8 else bytes_in(outputs[name], size)
    return before, new + before[len(new) :]  # a proof may be shorter than its slice, and the rest of that stays


def differences(library, entry, inputs, number, outputs):
    """Calls an entry; a text for each thing that is not as expected then."""
    named = [name + "_length" if mark == "=" else name for name, mark, size in parameters(entry) if size < 8]
    expect_fields("inputs", inputs, " ".join(named))
    if number_in(number) == 0:
        expect_fields("outputs", outputs, " ".join(name for name, mark, _ in parameters(entry) if mark == "="))
    else:
        expect(outputs == UNCHANGED, "outputs after a refusal: %.40r" % (outputs,))
    arguments, lent = [], []
    for name, mark, size in parameters(entry):
        if not mark:
            arguments.append(ctypes.c_uint32(number_in(inputs[name])))
            continue
        before, after = contents(name, mark, size, inputs, outputs)
        lent.append((name, Slice(before, size), after))
        arguments.append(lent[-1][1].pointer)
        if size < 8:
            arguments.append(ctypes.c_size_t(len(before) // size))
    found = getattr(library, PREFIX + entry)(*arguments)
    texts = [] if found == number else ["returned %d, not %d" % (found, number)]
    places = [(name, part.differs_at(after)) for name, part, after in lent]
    return texts + ["%s differs at byte %d" % (name, at) for name, at in places if at is not None]


def sizes_of(entry, inputs):
    """The sizes of an accepted call, from its inputs."""
    if entry == "interpolate":
        return {"points": len(bytes_in(inputs["points"], 4)) // 4}
    if entry == "commit":
        return {name: inputs[name] for name in SIZES["commit"].split()}
    return dict(zip("h mu nu w l eta m beta".split(), struct.unpack_from("<BBHHBBBB", bytes_in(inputs["question"]), 5)))


def group_results(library, entry, group):
    """(case, its differences) of each case."""
    fields, call = "sizes inputs tests", partial(differences, library)
    expect_fields("group", group, fields + " entry outputs" if entry == "strings" else fields)
    expect_fields("sizes", group["sizes"], SIZES.get(group.get("entry", entry), SIZES["commit"] + " m"))
    if entry == "strings":
        expect(group["entry"] == "commit" or sizes_of("", group["inputs"]) == group["sizes"], "not the group's sizes")
        yield from string_differences(call, group)
        return
    for case in group["tests"]:
        expect_fields("case", case, "tcId comment flags inputs number outputs")
        inputs = {**(group["sizes"] if entry == "commit" else {}), **group["inputs"], **case["inputs"]}
        yield case, call(entry, inputs, case["number"], case["outputs"])
        expect(case["number"] or sizes_of(entry, inputs) == group["sizes"], "accepted, not under the group's sizes")


def once(pairs):
    expect(len(dict(pairs)) == len(pairs), "a field stands twice")
    return dict(pairs)


def run_file(library, path):
    """Numbers of cases passed and failed."""
    whole = json.loads(path.read_bytes(), object_pairs_hook=once)
    expect_fields("head", whole, HEAD)
    expect((whole["algorithm"], whole["questionVersion"]) == (ALGORITHM, VERSION), "not of this algorithm and version")
    entry, passed, failed = whole["entry"], 0, 0
    expect(entry in ENTRIES or entry == "strings", "no such entry: %r" % (entry,))
    for group in whole["testGroups"]:
        for case, found in group_results(library, entry, group):
            expect(case["tcId"] == passed + failed + 1, "case %d has another number" % (passed + failed + 1))
            expect(case["flags"] and set(case["flags"]) <= set(whole["notes"]), "flags: %s" % case["flags"])
            passed, failed = (passed, failed + 1) if found else (passed + 1, failed)
            if found:
                print("%s, case %d (%s): %s" % (path.name, case["tcId"], case["comment"], "; ".join(found)))
    expect(0 < passed + failed == whole["numberOfTests"], "not as many cases as the head says")
    print("%-18s %4d cases, %d differences" % (path.name, passed + failed, failed), flush=True)
    return passed, failed


def open_library(path):
    library = ctypes.CDLL(str(Path(path).resolve()))
    for entry in ENTRIES:
        getattr(library, PREFIX + entry).restype = ctypes.c_uint32
    return library


def main(words):
    if not words or words[0].startswith("-"):
        print("run.py: needs LIBRARY.so, and takes FILE.json ... after it", file=sys.stderr)
        return 2
    files = [Path(word) for word in words[1:]] or sorted(Path(__file__).resolve().parent.glob("*.json"))
    at, passed, failed = words[0], 0, 0
    try:
        library = open_library(at)
        for at in files:
            counts = run_file(library, at)
            passed, failed = passed + counts[0], failed + counts[1]
    except (OSError, AttributeError, LookupError, OverflowError, TypeError, ValueError, struct.error) as error:
        print("run.py: %s: %s: %s" % (at, type(error).__name__, error), file=sys.stderr)
        return 2
    print("%d passed, %d failed" % (passed, failed))
    return 1 if failed or not passed else 0


if __name__ == "__main__":
    sys.exit(main(sys.argv[1:]))
