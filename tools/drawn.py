"""Drawn inputs without end: a pool of honest and simulated drafts, each input with none, one or two faults.

The second implementation alone tells the expected outcomes. A block of inputs depends on its seed only.
"""

import paths  # noqa: F401  (makes the modules below importable)
import smallwood as S
from calls import (
    COMMIT_SIZES, SALT_LENGTHS, CommitCall, LengthCall, OpenCall, PermutationsCall, commit_label, exchanged_salt,
    off_by, salt_of, version_1, version_2, with_word,
)  # fmt: skip
from cases import check_case
from drafts import (
    LAST_WORD, Draft, ProofDraft, Source, add, ask, committed, drawn_question, honest, lend, name, outputs, product,
    proof_buffer, proof_question, reply_buffer, simulated, vanishing,
)  # fmt: skip
from faults import BAD_KAPPAS, BAD_MARKS, BAD_SIZES, spoil
from interpolations import InterpolateCall, different, room
from proofs import ProveCall, proof_case
from smallwood import MAX_POINTS, Q, Reply

BLOCK = 10000  # inputs for one seed
POOL = 40  # drafts to take an input from
RENEWED = 1000  # inputs after which a commitment is replaced


# ---- Faults in the parts of a draft -----------------------------------------------------------------


def place(src, sequence):
    """A place in it, often the first or the last."""
    return src.pick((0, len(sequence) - 1, src.below(len(sequence))))


def rehash(src, d):
    """The root to fit leaves and nodes, where indices and nodes allow it."""
    rising = all(a < b for a, b in zip(d.indices, d.indices[1:] + [d.sizes.leaves]))
    if rising and len(d.nodes) == len(S.missing_nodes(d.sizes.h, d.indices)):
        d.rehash()


def leaf_value(src, d):
    d.change_value(place(src, d.leaves), src.below(d.sizes.record), src.nonzero())


def leaf_value_rehashed(src, d):
    leaf_value(src, d)
    rehash(src, d)


def row_hidden(src, d):
    """A row value that no repetition sees."""
    d.compensate(place(src, d.leaves), src.below(d.sizes.rows), src.nonzero(), range(d.sizes.eta))
    rehash(src, d)


def row_seen_once(src, d):
    seen = place(src, d.challenges)
    fitted = [k for k in range(d.sizes.eta) if k != seen]
    d.compensate(place(src, d.leaves), src.below(d.sizes.rows), src.nonzero(), fitted)
    rehash(src, d)


def nonce(src, d):
    b = place(src, d.leaves)
    d.leaves[b] = d.leaves[b][0], spoil(d.leaves[b][1], src.below(32))


def node(src, d):
    if d.nodes:
        n = place(src, d.nodes)
        d.nodes[n] = spoil(d.nodes[n], src.below(32))


def root(src, d):
    d.root = spoil(d.root, src.below(32))


def salt(src, d):
    d.salt = spoil(d.salt, place(src, d.salt))


def salt_rehashed(src, d):
    """The root to fit the other salt, too."""
    salt(src, d)
    rehash(src, d)


def salt_and_root(src, d):
    """Both wrong, or each in the other's place."""
    if src.below(2):
        d.root, d.salt = d.salt, d.root
    else:
        root(src, d)
        salt(src, d)


def batching_word(src, d):
    k = place(src, d.batchings)
    d.batchings[k] = add(d.batchings[k], [0] * src.below(d.sizes.width) + [src.nonzero()])


def batching_at_one_leaf(src, d):
    d.shift_batching(place(src, d.batchings), product([src.nonzero()], d.others(place(src, d.leaves))))


def batching_right_at_leaves(src, d):
    extra = src.elements(src.between(1, d.sizes.columns))
    d.shift_batching(place(src, d.batchings), product(vanishing(d.indices), extra))


def answer_word(src, d):
    answer = d.answers[place(src, d.answers)]
    at = place(src, answer)
    answer[at] = (answer[at] + src.nonzero()) % Q


def answer_at_one_leaf(src, d):
    d.shift_answer(place(src, d.answers), product([src.nonzero()], d.others(place(src, d.leaves))))


def answer_right_at_leaves(src, d):
    extra = src.elements(src.between(1, d.sizes.columns))
    d.shift_answer(place(src, d.answers), product(vanishing(d.indices), extra))


def challenge(src, d):
    d.challenges[place(src, d.challenges)] = src.edgy(1)[0]


def point(src, d):
    d.points[place(src, d.points)] = src.edgy(1)[0]


def exchanged(src, d):
    sequence = src.pick((d.batchings, d.answers, d.leaves, d.nodes, d.challenges, d.points, d.indices))
    if sequence:
        a, b = place(src, sequence), place(src, sequence)
        sequence[a], sequence[b] = sequence[b], sequence[a]


def index(src, d):
    choices = src.below(d.sizes.leaves), d.sizes.leaves, d.indices[0], src.below(65536)
    d.indices[place(src, d.indices)] = src.pick(choices)


def records(d):
    return [d.challenges, d.points] + d.batchings + d.answers + [values for values, _ in d.leaves]


def large_word(src, d):
    record = src.pick(records(d))
    record[place(src, record)] = src.pick((Q, Q + 1, LAST_WORD, Q - 1))


def second_encoding(src, d):
    """The first word below 5, plus q."""
    for record in records(d):
        for at, word in enumerate(record):
            if word < 5:
                record[at] = word + Q
                return
    large_word(src, d)


def node_left_out(src, d):
    if d.nodes:
        d.nodes.pop(place(src, d.nodes))


def node_too_many(src, d):
    d.nodes.insert(src.below(len(d.nodes) + 1), src.pick(d.nodes + [d.root]))


def large_answer(src, d):
    record = src.pick(d.batchings + d.answers)
    record[place(src, record)] = src.pick((Q, Q + 1, LAST_WORD, Q - 1))


def exchanged_answers(src, d):
    sequence = src.pick((d.batchings, d.answers))
    a, b = place(src, sequence), place(src, sequence)
    sequence[a], sequence[b] = sequence[b], sequence[a]


def right_at_one_leaf(src, d):
    """An R or T that is right at one leaf, which may be drawn."""
    shift = product(vanishing([src.below(d.sizes.leaves)]), [src.nonzero()])
    if src.below(2):
        answer = place(src, d.answers)
        d.answers[answer] = add(d.answers[answer], [S.evaluate(shift, x) for x in S.grid_points(d.sizes)])
    else:
        batching = place(src, d.batchings)
        d.batchings[batching] = add(d.batchings[batching], shift)


# ---- Faults in the bytes ----------------------------------------------------------------------------


def changed_byte(src, data):
    if not data:
        return data
    at = src.below(len(data))
    return data[:at] + bytes([src.pick((0, 1, 255, data[at] ^ 1 << src.below(8), src.below(256)))]) + data[at + 1 :]


def changed_length(src, data):
    cut = src.pick((1, 2, 4, 32, len(data), src.below(len(data) + 1)))
    return src.pick((data[: max(0, len(data) - cut)], data + bytes(cut), data + data[:cut]))


def question_byte(src, q, r, size):
    return changed_byte(src, q), r, size


def reply_byte(src, q, r, size):
    return q, changed_byte(src, r), size


def question_length(src, q, r, size):
    return changed_length(src, q), r, size


def reply_length(src, q, r, size):
    return q, changed_length(src, r), size


def mark(src, q, r, size):
    return src.pick(BAD_MARKS) + q[5:], r, size


def bad_size(src, q, r, size):
    at, part = src.pick(BAD_SIZES)
    return q[:at] + part + q[at + len(part) :], r, size


def salt_byte(src, q, r, size):
    if len(q) < S.AFTER_SALT:
        return q, r, size
    return spoil(q, S.SALT_AT + src.pick((0, S.SALT_BYTES - 1, src.below(S.SALT_BYTES)))), r, size


def salt_length(src, q, r, size):
    """A salt that is longer or shorter than it has to be, or none."""
    salt = salt_of(q[S.SALT_AT : S.AFTER_SALT], src.pick(SALT_LENGTHS))
    return q[: S.SALT_AT] + salt + q[S.AFTER_SALT :], r, size


def salt_before_root(src, q, r, size):
    return exchanged_salt(q), r, size


def older_version(src, q, r, size):
    return src.pick((version_1, version_2))(q), r, size


def header_byte(src, q, r, size):
    at = src.below(S.HEADER_BYTES)
    return q[:at] + bytes([src.pick((0, 1, 2, 3, 4, src.below(256)))]) + q[at + 1 :], r, size


def other_blinding(src, q, r, size):
    """Another number of blinding rows, often with as many rows in all."""
    if len(q) < S.HEADER_BYTES:
        return q, r, size
    mu, beta = q[6], src.pick((0, 1, q[6], q[14] ^ 1, src.below(20)))
    mu = src.pick((mu, (mu + q[14] - beta) % 256))
    return q[:6] + bytes([mu]) + q[7:14] + bytes([beta % 256]) + q[15:], r, size


def buffer_length(src, q, r, size):
    return q, r, src.pick((0, size + 1, size + 4, max(0, size - 1), max(0, size - 4), 2 * size))


def boundary(src, q, r, size):
    """Bytes over the border of question and reply."""
    if src.below(2):
        return q[:-2], q[-2:] + r, size
    return q + r[:4], r[4:], size


PART_FAULTS = (
    leaf_value, leaf_value_rehashed, row_hidden, row_seen_once, nonce, node, rehash, root, salt, salt_rehashed,
    salt_and_root, batching_word, batching_at_one_leaf, batching_right_at_leaves, answer_word, answer_at_one_leaf,
    answer_right_at_leaves, challenge, point, exchanged, index, large_word, second_encoding, node_left_out,
    node_too_many,
)  # fmt: skip

BYTE_FAULTS = (
    question_byte, reply_byte, question_length, reply_length, mark, bad_size, header_byte, other_blinding,
    salt_byte, salt_length, salt_before_root, older_version, buffer_length, boundary,
)  # fmt: skip

# Those that the question may show.
QUESTION_FAULTS = (
    challenge, point, exchanged, index, large_word, second_encoding, question_byte, question_length, mark, bad_size,
    header_byte, other_blinding, salt_byte, salt_length, salt_before_root, older_version,
)  # fmt: skip


# Those that a proof's draw sees, and those after it. Indices and challenges stand in no proof, and its root is hashed.
ANSWER_FAULTS = (batching_word, answer_word, large_answer, exchanged_answers, right_at_one_leaf)

LATE_FAULTS = (leaf_value, nonce, node, node_left_out, node_too_many)

PROOF_FAULTS = ANSWER_FAULTS + LATE_FAULTS + BYTE_FAULTS


def with_faults(src, d, faults):
    """Question, reply and value buffer length of a draft with these faults, those in its parts first."""
    parts = [fault for fault in faults if fault in PART_FAULTS]
    if parts:
        d = d.copy()
    for fault in parts:
        fault(src, d)
    question, reply, size = d.question(), d.reply(), 4 * d.sizes.w * d.sizes.m
    for fault in faults:
        if fault not in parts:
            question, reply, size = fault(src, question, reply, size)
    return question, reply, size


def shown(faults):
    return " + ".join(fault.__name__ for fault in faults) or "none"


# ---- Inputs -----------------------------------------------------------------------------------------


class Pool:
    """Commitments of drawn sizes, and drafts of questions with accepted replies; some change with time."""

    def __init__(self, seed):
        self.src = Source("drawn inputs %d" % seed)
        self.seed, self.count = seed, 0
        self.commitments = [self.new_commitment(n) for n in range(10)]
        self.drafts = [self.new_draft(n) for n in range(POOL)]

    def new_commitment(self, n):
        """The last but one is of medium size, the last is large."""
        src = self.src
        s = src.sizes(*{8: (8, 16, 60), 9: (9, 64, 320)}.get(n, (5, 5, 20)))
        return committed(s, lend(src, s, src.edgy if n % 2 else src.elements))

    def new_draft(self, n):
        """Every fourth is simulated; one in 8 is of medium size, one in 40 large."""
        src = self.src
        if n % 4 == 3:
            s = src.sizes(4, 4, 12)
            return simulated(src, s, challenges=src.edgy(s.eta), points=src.edgy(s.m))
        c = self.commitments[9 if n % 40 == 38 else 8 if n % 8 == 6 else src.below(8)]
        m = src.between(1, 8)
        if n % 2:
            return honest(c, ask(src, c, m))
        return honest(c, ask(src, c, m, challenges=src.edgy(c.sizes.eta), points=src.edgy(m)))

    def next(self):
        """Counts an input; now and then a commitment is replaced."""
        self.count += 1
        if self.count % RENEWED == 0:
            at = self.src.below(len(self.commitments))
            self.commitments[at] = self.new_commitment(at)

    def check_case(self):
        """One input of the check, as a CheckCase; one without a fault is a new draft."""
        self.next()
        src = self.src
        at = src.below(POOL)
        faults = [src.pick(PART_FAULTS + BYTE_FAULTS) for _ in range(src.pick((0, 1, 1, 1, 1, 2, 2, 2)))]
        if not faults:
            self.drafts[at] = self.new_draft(at)
        d = self.drafts[at]
        question, reply, size = with_faults(src, d, faults)
        label = "drawn %d.%d: %s [%s]" % (self.seed, self.count, shown(faults), name(d.sizes))
        return check_case(label, question, reply, None, None, size)

    def planners_question(self, what):
        """Label and bytes of a question of any sizes, with none, one or two faults."""
        self.next()
        src = self.src
        s = src.sizes(12, 64, 320)
        q = drawn_question(src, s, src.bytes(32), src.bytes(32), challenges=src.edgy(s.eta), points=src.edgy(s.m))
        faults = [src.pick(QUESTION_FAULTS) for _ in range(src.pick((0, 0, 1, 1, 2)))]
        question = with_faults(src, Draft(q, Reply([], [], [], [])), faults)[0]
        return "drawn %d.%d: %s, %s [%s]" % (self.seed, self.count, what, shown(faults), name(s)), question

    def length_call(self):
        label, question = self.planners_question("length")
        return LengthCall(label, question, *S.reply_length(question))

    def permutations_call(self):
        label, question = self.planners_question("permutations")
        return PermutationsCall(label, question, *S.permutations(question))

    def proof_draft(self):
        """A proof to be: of the small commitments mostly."""
        src = self.src
        c = self.commitments[src.pick((8, 9)) if src.below(12) == 0 else src.below(8)]
        m = src.between(1, 8)
        return ProofDraft(c, proof_question(src, c, m, src.edgy(m)))

    def proof_case(self):
        """One input of the check of a proof, with none, one or two faults."""
        self.next()
        src, d = self.src, self.proof_draft()
        kappa = src.pick((0, 0, 1, 2, 3, src.between(0, 8)))
        faults = [src.pick(PROOF_FAULTS) for _ in range(src.pick((0, 1, 1, 1, 2, 2)))]
        for fault in faults:
            if fault in ANSWER_FAULTS:
                fault(src, d)
        counter = src.pick((d.least(kappa), d.least(kappa), src.below(2**32)))
        e = d.opened(counter)
        for fault in faults:
            if fault in LATE_FAULTS:
                fault(src, e)
        if src.below(12) == 0:
            counter = src.pick((counter + 1, counter ^ 1 << src.below(32), src.below(2**32))) % 2**32
        question, proof, size = d.question(), S.write_counter(counter) + e.reply(), 4 * d.sizes.w * d.sizes.m
        for fault in faults:
            if fault in BYTE_FAULTS:
                question, proof, size = fault(src, question, proof, size)
        if src.below(12) == 0:
            kappa = src.pick(BAD_KAPPAS + (kappa + 1, kappa + 1, 16))
        label = "drawn %d.%d: proof, %s" % (self.seed, self.count, shown(faults))
        case = proof_case(label, question, kappa, proof, None, None, size)
        return case._replace(label="%s [%s]" % (label, name(d.sizes)))

    def prove_call(self):
        """A call of the prover, with a fault in one of two."""
        self.next()
        src, d = self.src, self.proof_draft()
        c, kappa, question = d.commitment, src.between(0, 9), d.question()
        limit = src.pick((LAST_WORD, LAST_WORD, src.below(2**kappa + 2), d.least(kappa), d.least(kappa) + 1))
        given = dict(c.lent._asdict(), table=c.table, tree=c.tree, buffer=proof_buffer(d.sizes))
        label = "drawn %d.%d: prove" % (self.seed, self.count)
        kind = src.below(8)
        if kind == 0:
            question = src.pick((changed_byte, changed_length))(src, question)
            label += ", question"
        elif kind == 1:
            label += self.slice_fault(given)
        elif kind == 2:
            kappa = src.pick(BAD_KAPPAS)
        elif kind == 3:
            question, fault = self.salt_fault(question, given)
            label += fault
        found = S.prove(question, kappa, limit, *given.values())
        label = "%s, kappa %d, limit %d [%s]" % (label, kappa, limit, name(d.sizes))
        return ProveCall(label, question, kappa, limit, *given.values(), *found)

    def commit_call(self):
        """A call of the committer with drawn words, with a fault in one of three."""
        self.next()
        src = self.src
        s = src.sizes(5, 6, 24)
        given = dict(lend(src, s, src.edgy if src.below(2) else src.elements)._asdict())
        given["table"], given["tree"] = outputs(s)
        label = "drawn %d.%d: commit" % (self.seed, self.count)
        if src.below(3) == 0:
            label += self.slice_fault(given)
        if src.below(8) == 0:
            field = src.pick(COMMIT_SIZES)
            s = s._replace(**{field: src.pick((0, getattr(s, field) + 1, src.below(300), src.below(2**32)))})
            label += ", size %s" % field
        found = S.commit(*s.of_commitment, *given.values())
        return CommitCall(commit_label(label, s), *s.of_commitment, *given.values(), *found)

    def open_call(self):
        """A call of the opener, with a fault in one of three."""
        self.next()
        src = self.src
        c = src.pick(self.commitments)
        m = src.between(1, 8)
        q = ask(src, c, m, challenges=src.edgy(c.sizes.eta), points=src.edgy(m))
        question, s = S.write_question(q), q.sizes
        given = dict(c.lent._asdict(), table=c.table, tree=c.tree, buffer=reply_buffer(question))
        label = "drawn %d.%d: open" % (self.seed, self.count)
        kind = src.below(8)
        if kind == 0:
            question = src.pick((changed_byte, changed_length))(src, question)
            label += ", question"
        elif kind < 3:
            label += self.slice_fault(given)
        elif kind == 3:
            question, fault = self.salt_fault(question, given)
            label += fault
        found = S.open_reply(question, *given.values())
        return OpenCall("%s [%s]" % (label, name(s)), question, *given.values(), *found)

    def interpolate_call(self):
        """A call of the interpolation, with none, one or two faults; few have many points."""
        self.next()
        src = self.src
        count = src.pick((1, 2, src.between(1, 9), src.between(1, 17), src.between(1, 40), src.between(1, 40)))
        if src.below(12) == 0:
            count = src.pick((MAX_POINTS, src.between(1, MAX_POINTS + 1)))
        first = src.below(Q)
        points = src.pick((different(src, count), [(first + x) % Q for x in range(count)]))
        values = src.edgy(count) if src.below(2) else src.elements(count)
        given = {"points": points, "values": values, "coefficients": room(count)}
        label = "drawn %d.%d: interpolate, %d points" % (self.seed, self.count, count)
        for _ in range(src.pick((0, 1, 1, 2))):
            if src.below(3) == 0:
                label += self.equal_points(given)
            else:
                label += self.slice_fault(given)
        found = S.interpolate(**given)
        return InterpolateCall(label, *given.values(), *found)

    def equal_points(self, given):
        """A point is set to another one, or next to it."""
        src, points = self.src, given["points"]
        if not points:
            return ""
        first, second = place(src, points), place(src, points)
        given["points"] = with_word(points, second, src.pick((points[first], points[first], points[first] ^ 1)))
        return ", points %d, %d" % (first, second)

    def salt_fault(self, question, given):
        """Another salt asked for, lent, or both; or a lent one of another length. Then perhaps another root, too."""
        src = self.src
        fault, kind = src.pick((salt_byte, salt_byte, salt_before_root)), src.pick(("asked", "lent", "both", "length"))
        other = fault(src, question, b"", 0)[0]
        if kind == "length":
            given["salt"] = salt_of(given["salt"], src.pick(SALT_LENGTHS))
        if kind in ("lent", "both"):
            given["salt"] = S.root_and_salt(other)[1]
        if kind in ("asked", "both"):
            question = other
        if src.below(4) == 0:
            given["tree"] = spoil(given["tree"], -1 - src.below(32))
        return question, ", salt %s" % kind

    def slice_fault(self, given):
        """A slice of wrong length, or with another word or byte in it."""
        src = self.src
        part = src.pick(list(given))
        whole = given[part]
        if len(whole) == 0 or src.below(3) == 0:
            given[part] = off_by(whole, src.pick((-1, 1, 32, -len(whole))))
            return ", length of %s" % part
        at = src.pick((-1, src.below(len(whole))))
        if isinstance(whole, bytes):
            given[part] = spoil(whole, at)
        else:
            given[part] = with_word(whole, at, src.pick((0, Q - 1, Q, LAST_WORD, src.below(2**32))))
        return ", %s" % part


def drawn_inputs(count, seed=1):
    """This many inputs, mostly of the checks: of 50, fifteen are proofs, one calls the committer, one the opener, one
    the prover, four reply_length, four permutations, four the interpolation."""
    pool = None
    others = {n: Pool.proof_case for n in range(0, 48, 3)}
    others.update({49: Pool.commit_call, 24: Pool.open_call, 34: Pool.prove_call})
    others.update(dict.fromkeys((10, 19, 29, 40), Pool.length_call))
    others.update(dict.fromkeys((7, 22, 37, 46), Pool.permutations_call))
    others.update(dict.fromkeys((5, 17, 31, 43), Pool.interpolate_call))
    for n in range(count):
        if n % BLOCK == 0:
            pool = Pool(seed + n // BLOCK)
        yield others.get(n % 50, Pool.check_case)(pool)
