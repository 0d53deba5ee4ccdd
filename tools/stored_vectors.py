#!/usr/bin/env python3
"""The test vectors for other implementations in vectors/, and the table of their counts in vectors/README.md.

    tools/stored_vectors.py            writes them
    tools/stored_vectors.py --check    makes them anew, compares them with what is stored and names what differs

Nothing here runs the library: the second implementation alone makes them, and each case also has the number that its
construction gives. Which cases there are is said in reference/vectors_*.py.
"""

import json
import sys
from collections import Counter
from pathlib import Path

import paths  # noqa: F401  (makes the modules below importable)
import smallwood as S
from arguments import only_check
from calls import COMMIT_SIZES
from vectors import NOTES, NUMBERS, StringGroup
from vectors_calls import (
    commit_vectors, interpolate_vectors, open_vectors, permutations_vectors, reply_length_vectors,
)  # fmt: skip
from vectors_check import check_vectors
from vectors_proofs import check_proof_vectors, prove_vectors
from vectors_strings import string_groups

FOLDER = Path(__file__).resolve().parent.parent / "vectors"
ALGORITHM = "SmallWood polynomial commitment, q = 4294967291, SHAKE256 cut to 32 bytes"
COUNTS = "<!-- counts -->\n", "<!-- end of counts -->\n"
UNCHANGED = "unchanged"  # the outputs of a refusal

VECTORS = {
    "commit": commit_vectors,
    "reply_length": reply_length_vectors,
    "open": open_vectors,
    "permutations": permutations_vectors,
    "check": check_vectors,
    "prove": prove_vectors,
    "check_proof": check_proof_vectors,
    "interpolate": interpolate_vectors,
}


# ---- From vectors to JSON ---------------------------------------------------------------------------


def shown(contents):
    """A slice in hexadecimal, words with the lowest byte first; a number as it is."""
    if isinstance(contents, int):
        return contents
    return (contents if isinstance(contents, bytes) else S.to_bytes(contents)).hex()


def shown_all(slices):
    return {name: shown(contents) for name, contents in slices.items()}


def shown_sizes(entry, sizes):
    if entry == "interpolate":
        return {"points": sizes}
    return {name: getattr(sizes, name) for name in COMMIT_SIZES + (() if entry == "commit" else ("m",))}


def case_of(number, vector, common):
    inputs = shown_all(vector.inputs)
    return {
        "tcId": number,
        "comment": vector.comment,
        "flags": list(vector.flags),
        "inputs": {name: value for name, value in inputs.items() if common.get(name) != value},
        "number": vector.number,
        "outputs": UNCHANGED if vector.number else shown_all(vector.outputs),
    }


def groups_of(entry, vectors):
    """The groups by sizes, in the order in which these appear, with the inputs of their first cases."""
    by_sizes, number, groups = {}, 0, []
    for vector in vectors:
        by_sizes.setdefault(vector.sizes, []).append(vector)
    for sizes, members in by_sizes.items():
        assert len({vector.comment for vector in members}) == len(members), [vector.comment for vector in members]
        common = shown_all(members[0].inputs)
        cases = [case_of(number + n, vector, common) for n, vector in enumerate(members, 1)]
        number += len(cases)
        groups.append({"sizes": shown_sizes(entry, sizes), "inputs": common, "tests": cases})
    return groups


def string_case(number, string):
    case = {"tcId": number, "comment": string.comment, "flags": list(string.flags), "kind": string.kind}
    case.update(parts=shown_all(string.parts), string=string.string.hex(), output=string.output.hex())
    case.update({"place": string.place} if string.drawn is None else {"drawn": string.drawn})
    return case


def string_groups_shown():
    number = 0
    for group in string_groups():
        assert isinstance(group, StringGroup)
        cases = [string_case(number + n, string) for n, string in enumerate(group.strings, 1)]
        number += len(cases)
        yield {
            "sizes": shown_sizes(group.entry, group.sizes),
            "entry": group.entry,
            "inputs": shown_all(group.inputs),
            "outputs": shown_all(group.outputs),
            "tests": cases,
        }


def whole(entry, groups):
    """A file's contents: the head, and the groups."""
    flags = [flag for group in groups for case in group["tests"] for flag in case["flags"]]
    return {
        "algorithm": ALGORITHM,
        "entry": entry,
        "questionVersion": S.VERSION,
        "generator": "the second implementation, in Python",
        "fields": "vectors/README.md says what they mean",
        "numberOfTests": sum(len(group["tests"]) for group in groups),
        "notes": {flag: note for flag, note in NOTES.items() if flag in flags},
        "testGroups": groups,
    }


def written(value, depth=0):
    """JSON with one field to a line; numbers that stand together share one."""
    inner, outer = " " * (depth + 1), " " * depth
    if isinstance(value, dict) and value and not all(isinstance(item, int) for item in value.values()):
        lines = ["%s%s: %s" % (inner, json.dumps(name), written(item, depth + 1)) for name, item in value.items()]
        return "{\n%s\n%s}" % (",\n".join(lines), outer)
    if isinstance(value, list) and value and isinstance(value[0], dict):
        lines = [inner + written(item, depth + 1) for item in value]
        return "[\n%s\n%s]" % (",\n".join(lines), outer)
    return json.dumps(value)


# ---- The table of counts ----------------------------------------------------------------------------


def count_table(files):
    """How many cases each entry has, in all and by number."""
    numbers = sorted(set().union(*NUMBERS.values()))
    yield "| File | Cases | %s |" % " | ".join(map(str, numbers))
    yield "|---|---|%s" % ("---|" * len(numbers))
    for entry, contents in files.items():
        found = Counter(case.get("number") for group in contents["testGroups"] for case in group["tests"])
        cells = [str(found[number]) if found[number] else "" for number in numbers]
        yield "| `%s.json` | %d | %s |" % (entry, contents["numberOfTests"], " | ".join(cells))


def page(files):
    """The page with its table of counts as the files have it."""
    text = (FOLDER / "README.md").read_text()
    if any(text.count(mark) != 1 for mark in COUNTS):
        sys.exit("vectors/README.md has no place for the table of counts")
    before, rest = text.split(COUNTS[0])
    lines = "".join(line + "\n" for line in count_table(files))
    return before + COUNTS[0] + lines + COUNTS[1] + rest.split(COUNTS[1])[1]


# ---- Files ------------------------------------------------------------------------------------------


def made():
    """Name and text of each file."""
    files = {"strings": whole("strings", list(string_groups_shown()))}
    for entry, vectors in VECTORS.items():
        files[entry] = whole(entry, groups_of(entry, vectors()))
        found = {case["number"] for group in files[entry]["testGroups"] for case in group["tests"]}
        assert found == NUMBERS[entry], (entry, found)
    texts = {entry + ".json": written(contents) + "\n" for entry, contents in files.items()}
    return {**texts, "README.md": page(files)}


def differing(texts):
    """Names of files that are not as made here, and of vectors that are not made here."""
    for name, text in texts.items():
        if not (FOLDER / name).is_file() or (FOLDER / name).read_text() != text:
            yield name
    yield from sorted(path.name for path in FOLDER.glob("*.json") if path.name not in texts)


def main():
    check = only_check(__doc__)
    texts = made()
    wrong = list(differing(texts))
    if check:
        for name in wrong:
            print("not what the second implementation gives: vectors/%s" % name)
        print("%d stored files, %d differ" % (len(texts), len(wrong)))
        return 1 if wrong else 0
    for name in wrong:
        (FOLDER / name).unlink(missing_ok=True)
    for name, text in texts.items():
        (FOLDER / name).write_text(text)
    print("%d files written, %d of them new or other" % (len(texts), len(wrong)))
    return 0


if __name__ == "__main__":
    sys.exit(main())
