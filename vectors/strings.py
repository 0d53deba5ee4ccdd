"""The strings of strings.json: compared with their parts, with hashlib's SHAKE256, and with the call that hashes them.

A group is a call that returns 0. Of a commit the tree has to hold the digests, of a check the reply's nodes have to
lead to the question's root; of a check of a proof the conversation's check has to take what is drawn, too.
"""

import struct
from hashlib import shake_256

Q = 4294967291
NAMED = 79  # bytes of header, root and salt, with which a question begins

# First byte, and parts: NAME:SIZE is a number of SIZE bytes, lowest first.
KINDS = {
    "leaf": (0, "salt index:2 values nonce"),
    "node": (1, "salt left right"),
    "challenges": (2, "header root salt"),
    "leaves": (3, "header root salt points answers counter:4"),
}
FIELDS = {"tcId", "comment", "flags", "kind", "parts", "string", "output"}


def from_parts(case):
    first, names = KINDS[case["kind"]]
    string, parts = bytes([first]), dict(case["parts"])
    for word in names.split():
        name, _, size = word.partition(":")
        part = parts.pop(name)
        string += part.to_bytes(int(size), "little") if size else bytes.fromhex(part)
    if parts:
        raise ValueError("parts of no %s: %s" % (case["kind"], " ".join(parts)))
    return string


def pieces(data, size):
    return [data[at : at + size] for at in range(0, len(data), size)]


def missing_places(leaves, indices):
    """Where the nodes that a reply brings stand in the tree, in the reply's order."""
    places, start, covered = [], 0, set(indices)
    while leaves > 1:
        places += [start + i for i in sorted({i ^ 1 for i in covered} - covered)]
        start, leaves, covered = start + leaves, leaves // 2, {i // 2 for i in covered}
    return places


class Tree:
    """What a commit or a check says of a tree: digests by their places, and by leaf its values and nonce."""

    fields = {"place"}

    def __init__(self, s, inputs, outputs):
        self.leaves, record = 2 ** s["h"], 4 * (s["mu"] + s["beta"] + s["eta"])
        given = {name: bytes.fromhex(part) for name, part in {**inputs, **outputs}.items() if isinstance(part, str)}
        if "tree" in given:
            records = zip(pieces(given["table"], record), pieces(given["nonces"], 32))
            self.records = dict(enumerate(values + nonce for values, nonce in records))
            self.digests, self.salt = dict(enumerate(pieces(given["tree"], 32))), given["salt"]
            return
        question, reply = given["question"], given["reply"]
        indices = struct.unpack("<%dH" % s["l"], question[NAMED + 4 * (s["eta"] + s["m"]) :])
        start = 4 * (s["w"] * s["nu"] + s["l"]) * (s["eta"] + s["m"])
        end = start + s["l"] * (record + 32)
        self.records = dict(zip(indices, pieces(reply[start:end], record + 32)))
        self.digests = dict(zip(missing_places(self.leaves, indices), pieces(reply[end:], 32)))
        self.digests[2 * self.leaves - 2], self.salt = question[15:47], question[47:NAMED]

    def string(self, case):
        place = case["place"]
        if case["kind"] == "leaf":
            return b"\0" + self.salt + struct.pack("<H", place) + self.records[place]
        left = 2 * (place - self.leaves)
        return b"\1" + self.salt + self.digests[left] + self.digests[left + 1]

    def output_bytes(self, case):
        return 32

    def differences(self, call, case, output):
        known = self.digests.setdefault(case["place"], output)
        return [] if known == output else ["the tree has another digest at place %d" % case["place"]]


class Draws:
    """What the check of a proof draws: challenges first, then leaves."""

    fields = {"drawn"}

    def __init__(self, s, inputs, outputs):
        self.sizes, self.inputs, self.outputs = s, inputs, outputs
        self.question, self.proof = bytes.fromhex(inputs["question"]), bytes.fromhex(inputs["proof"])
        self.challenges = []

    def string(self, case):
        s = self.sizes
        if case["kind"] == "challenges":
            return b"\2" + self.question[:NAMED]
        answers = self.proof[4:][: 4 * (s["w"] * s["nu"] + s["l"]) * (s["eta"] + s["m"])]
        return b"\3" + self.question + answers + self.proof[:4]

    def output_bytes(self, case):
        return 8 * self.sizes["eta"] if case["kind"] == "challenges" else 32 + 8 * self.sizes["l"]

    def differences(self, call, case, output):
        words = struct.unpack("<%dQ" % (len(output) // 8), output)
        if case["kind"] == "challenges":
            self.challenges = [word % Q for word in words]
            return [] if case["drawn"] == self.challenges else ["other challenges are drawn"]
        unused = list(range(2 ** self.sizes["h"]))
        indices = sorted(unused.pop(word % len(unused)) for word in words[4:])
        texts = [] if case["drawn"] == indices else ["other leaves are drawn"]
        return texts + self.conversation(call, indices) + self.zero_bits(call, output)

    def conversation(self, call, indices):
        """The conversation's check, of the question so drawn and the reply after the counter."""
        asked = self.question[:NAMED] + struct.pack("<%dI" % len(self.challenges), *self.challenges)
        asked += self.question[NAMED:] + struct.pack("<%dH" % len(indices), *indices)
        inputs = {"question": asked.hex(), "reply": self.proof[4:].hex(), "values_length": self.inputs["values_length"]}
        return ["in the conversation: " + text for text in call("check", inputs, 0, self.outputs)]

    def zero_bits(self, call, output):
        """The proof is accepted up to as many bits as are zero, and has a 12 with one more."""
        zeros = min(16, 8 * len(output) - int.from_bytes(output, "big").bit_length())
        texts = call("check_proof", {**self.inputs, "kappa": zeros}, 0, self.outputs)
        if zeros < 16:
            texts += call("check_proof", {**self.inputs, "kappa": zeros + 1}, 12, "unchanged")
        return ["with %d zero bits: %s" % (zeros, text) for text in texts]


def string_differences(call, group):
    """(case, its differences) of each case; call(entry, inputs, number, outputs) gives those of a call."""
    s, entry, outputs = group["sizes"], group["entry"], group["outputs"]
    inputs = {**(s if entry == "commit" else {}), **group["inputs"]}
    of_call = call(entry, inputs, 0, outputs)
    if of_call:
        yield from ((case, of_call) for case in group["tests"])
        return
    hashing = {"commit": Tree, "check": Tree, "check_proof": Draws}[entry](s, inputs, outputs)
    for case in group["tests"]:
        if set(case) != FIELDS | hashing.fields:
            raise ValueError("not the fields %s" % " ".join(sorted(FIELDS | hashing.fields)))
        string, output, texts = bytes.fromhex(case["string"]), bytes.fromhex(case["output"]), []
        if from_parts(case) != string:
            texts.append("the string is not that of its parts")
        if hashing.string(case) != string:
            texts.append("the call hashes another string")
        if shake_256(string).digest(hashing.output_bytes(case)) != output:
            texts.append("SHAKE256 gives another output")
        yield case, texts + hashing.differences(call, case, output)
