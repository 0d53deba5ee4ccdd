"""Tests the runner of the test vectors: it has to report damaged files and libraries with faults.

    python3 vectors_faults.py LIBRARY FOLDER [--cc COMPILER]

Each file is damaged in each kind of its fields, one at a time, and run against the LIBRARY, which has to pass the files
as they are. Stubs with a fault each (vectors_stub.c) are run on one case. All is built in FOLDER. The exit status is 1
where something is not reported, or not with the exit status that it should have.
"""

import contextlib
import copy
import io
import json
import shutil
import subprocess
import sys
from collections import Counter
from pathlib import Path

sys.dont_write_bytecode = True
TOOLS = Path(__file__).resolve().parent
VECTORS = TOOLS.parent / "vectors"
sys.path.insert(0, str(VECTORS))

import paths  # noqa: E402, F401  (makes the module below importable)
import run  # noqa: E402
from arguments import Arguments, present  # noqa: E402

DIFFERENT, REFUSED = 1, 2  # what the runner returns after a difference, and where it does not understand
TOO_MANY = 2**20  # added to a number

# Fields that are for readers, and not looked at.
FREE = ("generator", "fields", "comment", "notes")


# ---- Where the fields are ---------------------------------------------------------------------------


def fields(value, path=(), kind=()):
    """(path, kind, value) of each field: a kind is a path without places in lists, and whether its case is accepted."""
    if isinstance(value, dict):
        if "number" in value:
            kind += ("accepted" if value["number"] == 0 else "refused",)
        for name, item in value.items():
            yield path + (name,), kind + (name,), item
            yield from fields(item, path + (name,), kind + (name,))
    elif isinstance(value, list):
        for at, item in enumerate(value):
            if isinstance(item, dict):
                yield path + (at,), kind + ("[]",), item
            yield from fields(item, path + (at,), kind + ("[]",))


def kinds_of(whole):
    """By kind the first path, and its value; of refused cases only those with one input that is not their group's."""
    found = {}
    for path, kind, value in fields(whole):
        several = "refused" in kind and len(whole["testGroups"][path[1]]["tests"][path[3]]["inputs"]) != 1
        if value != "" and value != {} and not several:
            found.setdefault(kind, (path, value))
    return found


# ---- Damages ----------------------------------------------------------------------------------------

LEFT_OUT = object()  # in place of a value


def nibble(text):
    """One digit in the middle another."""
    at = len(text) // 2
    return text[:at] + "%x" % (int(text[at], 16) ^ 1) + text[at + 1 :]


def is_hex(value):
    return isinstance(value, str) and len(value) % 2 == 0 and not set(value) - set("0123456789abcdef")


def hex_damages(kind, value):
    """(what, the damaged value, exit statuses that are right) of a slice."""
    yield "the last digit dropped", value[:-1], {REFUSED}
    if "refused" in kind:  # a fault that is damaged is a fault
        return
    if "inputs" not in kind:  # not every digit of the inputs matters to every entry
        yield "a digit another", nibble(value), {DIFFERENT}
    yield "the last byte dropped", value[:-2], {DIFFERENT, REFUSED}
    if len(value) % 8 == 0:
        yield "the last word dropped", value[:-8], {DIFFERENT, REFUSED}


def list_damages(kind, value):
    if kind[-1] == "flags":
        yield "no flags", [], {REFUSED}
        yield "another flag", value + ["unknown"], {REFUSED}
    elif kind[-1] == "drawn":
        yield "the last number left out", value[:-1], {DIFFERENT}
        yield "a number another", [value[0] + TOO_MANY] + value[1:], {DIFFERENT}
    else:
        yield "the last item left out", value[:-1], {REFUSED}


def damages(kind, value):
    """The same of any field; nothing of those that are for readers."""
    if kind[-1] in FREE or kind[0] in FREE:
        return
    input_of = kind[-3] if kind[-2:-1] == ("inputs",) else None  # an accepted case, a refused one, or a group
    if input_of == "refused":
        yield "left out, so that it is the group's", LEFT_OUT, {DIFFERENT}
    elif input_of != "accepted" and kind[-1] != "[]":
        yield "left out", LEFT_OUT, {REFUSED}
    if isinstance(value, dict):
        yield "a field more", {**value, "unknown": 0}, {REFUSED}
    elif isinstance(value, list):
        yield from list_damages(kind, value)
    elif isinstance(value, int):
        yield "no number", str(value), {REFUSED}
        if input_of != "refused":  # a greater limit would change nothing
            yield "another number", 0 if kind[-1] == "limit" else value + TOO_MANY, {DIFFERENT, REFUSED}
    elif is_hex(value):
        yield from hex_damages(kind, value)
    else:
        yield "another word", value + "x", {REFUSED}


def damaged(whole, path, value):
    """A copy with another value at this place."""
    made = copy.deepcopy(whole)
    place = made
    for step in path[:-1]:
        place = place[step]
    if value is LEFT_OUT:
        del place[path[-1]]
    else:
        place[path[-1]] = value
    return made


def alone(whole, at):
    """The file with one of its groups."""
    group = whole["testGroups"][at]
    cases = [{**case, "tcId": n} for n, case in enumerate(group["tests"], 1)]
    return {**whole, "numberOfTests": len(cases), "testGroups": [{**group, "tests": cases}]}


# ---- Runs -------------------------------------------------------------------------------------------


def status_of(library, path):
    """What the runner returns, and its last line."""
    printed = io.StringIO()
    with contextlib.redirect_stdout(printed), contextlib.redirect_stderr(printed):
        status = run.main([str(library), str(path)])
    return status, (printed.getvalue().splitlines() or [""])[-1]


def status_with(library, path, contents):
    path.write_text(json.dumps(contents))
    return status_of(library, path)


def unreported_damages(library, folder, counts):
    for path in sorted(VECTORS.glob("*.json")):
        whole, target, sound = json.loads(path.read_text()), folder / path.name, set()
        for kind, (place, value) in kinds_of(whole).items():
            at = place[1] if place[0] == "testGroups" and len(place) > 1 else 0
            small, place = alone(whole, at), tuple(0 if n == 1 else step for n, step in enumerate(place))
            if place == ("testGroups",):
                value = small["testGroups"]
            status, last = (0, "") if at in sound else status_with(library, target, small)
            sound.add(at)
            if status != 0:
                yield "%s, group %d alone and not damaged: exit status %d, %s" % (path.name, at, status, last)
            for what, other, right in damages(kind, value):
                status, last = status_with(library, target, damaged(small, place, other))
                counts[path.name] += 1
                if status not in right:
                    yield "%s, group %d, %s at %s: exit status %d, %s" % (path.name, at, what, place, status, last)
        yield from unreported_texts(library, target, path.read_text(), counts)


def unreported_texts(library, path, text, counts):
    """Damages to a file's text."""
    twice = text.replace('"numberOfTests"', '"entry": "check", "numberOfTests"', 1)
    for what, other in (("empty", ""), ("cut", text[: len(text) // 2]), ("a field twice", twice)):
        path.write_text(other)
        counts[path.name] += 1
        status, last = status_of(library, path)
        if status != REFUSED:
            yield "%s, %s: exit status %d, %s" % (path.name, what, status, last)


# What the stub's check does before it returns 6, where it changes something.
STUB_FAULTS = {
    "writes values": "values[0] ^= 1",
    "writes the last value byte": "values[values_length - 1] = 0",
    "writes before values": "values[-1] = 0",
    "writes after values": "values[values_length] = 0",
    "changes the question": "question[question_length - 1] ^= 1",
    "changes the reply": "reply[0] ^= 1",
    "writes after the reply": "reply[reply_length] = 0",
    "returns 5": "return 5",
}


def stub(folder, compiler, name, fault):
    library = folder / (name + ".so")
    words = [compiler, "-shared", "-fPIC", "-o", library, TOOLS / "vectors_stub.c"]
    subprocess.run(words + (["-DFAULT=" + fault] if fault else []), check=True)
    return library


def one_refusal():
    """The check's file with one case, that is refused with 6 and is lent no empty slice."""
    whole = json.loads((VECTORS / "check.json").read_text())
    for group in whole["testGroups"]:
        for case in group["tests"]:
            lent = {**group["inputs"], **case["inputs"]}
            if case["number"] == 6 and all(lent.values()):
                groups = [{**group, "tests": [{**case, "tcId": 1}]}]
                return {**whole, "numberOfTests": 1, "testGroups": groups}
    raise AssertionError("no such case")


def unreported_stubs(folder, compiler, counts):
    path = folder / "one_refusal.json"
    path.write_text(json.dumps(one_refusal()))
    sound = status_of(stub(folder, compiler, "stub", None), path)
    if sound != (0, "1 passed, 0 failed"):
        yield "the stub without a fault: exit status %d, %s" % sound
    for n, (name, fault) in enumerate(STUB_FAULTS.items()):
        status, last = status_of(stub(folder, compiler, "stub-%d" % n, fault), path)
        counts["stubs"] += 1
        if (status, last) != (DIFFERENT, "0 passed, 1 failed"):
            yield "the stub that %s: exit status %d, %s" % (name, status, last)


def unreported_words(library, folder, counts):
    """Words that the runner has to refuse."""
    none = str(folder / "none")
    for words in ([], ["--help-me"], [none], [str(library), none], [str(VECTORS / "check.json")]):
        printed = io.StringIO()
        with contextlib.redirect_stdout(printed), contextlib.redirect_stderr(printed):
            status = run.main(words)
        counts["words"] += 1
        if status != REFUSED or len(printed.getvalue().splitlines()) != 1:
            yield "run.py %s: exit status %d, %s" % (" ".join(words), status, printed.getvalue())


def main():
    parser = Arguments(__doc__)
    parser.add_argument("library", type=present)
    parser.add_argument("folder", type=Path)
    parser.add_argument("--cc", default="gcc")
    options = parser.parse_args()
    if shutil.which(options.cc) is None:
        parser.error("'%s' is not installed; it is needed to compile the stubs" % options.cc)
    options.folder.mkdir(parents=True, exist_ok=True)
    counts, failed = Counter(), []
    failed += unreported_damages(options.library, options.folder, counts)
    failed += unreported_stubs(options.folder, options.cc, counts)
    failed += unreported_words(options.library, options.folder, counts)
    for text in failed:
        print("NOT REPORTED:", text)
    print("faults: " + ", ".join("%d %s" % (count, name) for name, count in counts.items()))
    print("%d faults, %d not reported" % (sum(counts.values()), len(failed)))
    return 1 if failed else 0


if __name__ == "__main__":
    sys.exit(main())
