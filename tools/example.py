"""What example.sh leaves to Python. Expected values are by the second implementation and by arithmetic.

    python3 example.py polynomials FILE     draws polynomials for a badge
    python3 example.py values FILE LOG      compares what a reader printed with the polynomials in FILE
    python3 example.py forged LOG           that a check alone gave a forger a false value; `honest LOG`: a true one
    python3 example.py readers BADGE FILE   asks a badge, rightly and wrongly, and compares what it does
    python3 example.py digests LIBRARY      compares examples/digest.h, in a shared library, with hashlib
    python3 example.py lists QUESTION FIRST SECOND LOG
                                            that two proofs for one question, by a forger with this log, are accepted

Exit status 1 at the first thing that is not as it should be, 2 for wrong words.
"""

import ctypes
import fcntl
import hashlib
import os
import re
import sys
import threading
import time
from argparse import ArgumentTypeError
from collections import namedtuple
from pathlib import Path
from random import SystemRandom
from subprocess import PIPE, Popen

import paths  # noqa: F401  (makes the modules below importable)
import smallwood
from arguments import Arguments, present, runnable, writable
from smallwood import DIGEST_BYTES, HEADER_BYTES, Q, Question, Sizes, evaluate, to_bytes, to_words

EXAMPLES = Path(__file__).resolve().parent.parent / "examples"
LIMIT = 60  # seconds after which a badge is ended
NAMED = 2 * DIGEST_BYTES  # root and salt, a badge's first message
random = SystemRandom()


def must(holds, what):
    if not holds:
        sys.exit("example.py: it is not so that %s" % what)


def constant(file, name):
    """What an enum of the examples gives to a name."""
    found = re.search(r"\b%s = (\d+)\b" % name, (EXAMPLES / file).read_text())
    must(found, "examples/%s has %s" % (file, name))
    return int(found[1])


def example_sizes(m=None, file="sides.h"):
    h, mu, nu, w, l, eta, beta = (constant(file, name) for name in "H MU NU W L ETA BETA".split())
    return Sizes(h, mu, nu, w, l, eta, constant(file, "M") if m is None else m, beta)


# ---- Polynomials and their values


def draw_polynomials(path):
    s = example_sizes()
    Path(path).write_bytes(to_bytes([random.randrange(Q) for _ in range(s.w * s.each)]))


def polynomials_in(path, s):
    words = to_words(Path(path).read_bytes())
    return [words[i * s.each : (i + 1) * s.each] for i in range(s.w)]


def printed_by_reader(log):
    """Leaves, the planned numbers, and (polynomial from 1, point, value) in their order."""
    lines = Path(log).read_text().splitlines()
    must(len(lines) > 3 and lines[-1] == "reader: accepted", "the reader accepts")
    planned = re.fullmatch(
        r"question of (\d+) bytes, reply of (\d+) bytes; the check will run (\d+) permutations of Keccak", lines[1]
    )
    values = [re.fullmatch(r"polynomial (\d+) at (\d+) is (\d+)", line) for line in lines[2:-1]]
    must(lines[0].startswith("leaves ") and planned and all(values), "the reader prints what it should")
    return [int(i) for i in lines[0].split()[1:]], planned.groups(), [tuple(map(int, v.groups())) for v in values]


def compare_values(path, log):
    s = example_sizes()
    polynomials = polynomials_in(path, s)
    leaves, planned, values = printed_by_reader(log)
    points = [point for _, point, _ in values[:: s.w]]
    must(len(leaves) == s.l and leaves == sorted(set(leaves)) and leaves[-1] < s.leaves, "the leaves rise")
    must(len(points) == s.m and all(0 < point < Q for point in points), "points are elements, and none is 0")
    true = [(i + 1, z, evaluate(p, z)) for z in points for i, p in enumerate(polynomials)]
    must(values == true, "the values are the polynomials'")
    asked = Question(s, bytes(DIGEST_BYTES), bytes(DIGEST_BYTES), [0] * s.eta, points, leaves)
    numbers = smallwood.question_bytes(s), smallwood.reply_bytes_to(asked), smallwood.permutations_to(asked)
    must(tuple(map(int, planned)) == numbers, "lengths and permutations are those of these leaves")
    print("ok: %d values are the polynomials'; lengths and permutations are those of the leaves" % len(values))


def compare_forged(log, is_true):
    """The forger's first polynomial has the coefficients 1, 2, 3 and so on."""
    found = re.search(r"gives 0: polynomial 1 at (\d+) is (\d+)\n", Path(log).read_text())
    must(found, "the check alone accepts")
    true = evaluate(range(1, example_sizes().each + 1), int(found[1]))
    must((int(found[2]) == true) == is_true, "the value is %s" % ("true" if is_true else "false"))


# ---- Digests, and proofs of two lists

DIGEST_LENGTHS = *range(301), 1000, 4096, 10000, 100003  # of strings; beyond two blocks, and some long ones
DIGEST_COUNTS = 0, 1, 32, 135, 136, 137, 272, 600  # of output; around a block, and the most that is tried


def compare_digests(path):
    """Each string is taken in two pieces, cut at a place that is drawn; some output of every length is compared."""
    library = ctypes.CDLL(os.path.abspath(path))
    sizes = ctypes.c_size_t
    compared = 0
    for length in DIGEST_LENGTHS:
        string = os.urandom(length)
        for count in DIGEST_COUNTS:
            room = ctypes.create_string_buffer(b"\xaa" * (count + 1), count + 1)
            library.in_two(room, sizes(count), string, sizes(length), sizes(random.randint(0, length)))
            true = hashlib.shake_256(string).digest(count) + b"\xaa"
            must(room.raw == true, "SHAKE256 of %d bytes to %d is hashlib's" % (length, count))
            compared += 1
    print("ok: %d outputs of examples/digest.h are hashlib's" % compared)


def compare_lists(question, first, second, log):
    """The second implementation accepts both proofs, with the values and after the draws that the forger printed."""
    s, text = example_sizes(file="proof_forger.c"), Path(log).read_text()
    kappa = int(re.search(r"; kappa (\d+)\n", text)[1])
    lines = re.findall(r"list \d: (\d+) draws; the check gives 0: polynomial 1 at (\d+) is (\d+)\n", text)
    must(len(lines) == 2, "the forger prints two accepted proofs")
    asked = Path(question).read_bytes()
    must(asked.startswith(smallwood.write_header(s)), "the question has the forger's sizes")
    batchings, accepted = [], []
    for (draws, point, value), path in zip(lines, (first, second)):
        proof = Path(path).read_bytes()
        number, values = smallwood.check_proof(asked, kappa, proof, [0] * (s.w * s.m))
        must(number == 0, "the second implementation accepts, and does not say %d" % number)
        must([values[0], to_words(proof[:4])[0] + 1] == [int(value), int(draws)], "value and draws are as printed")
        must(int(point) == to_words(asked[smallwood.AFTER_SALT :])[0], "the point is the question's")
        batchings.append(proof[4 : 4 + 4 * s.eta * s.width])
        accepted.append(values)
    must(all(one != two for one, two in zip(*accepted)), "all values differ")
    must(batchings[0] != batchings[1], "R differ")
    print("ok: the second implementation accepts both proofs for one question, with different values")


# ---- Readers


class Talk:
    """A conversation with a badge. What it has sent so far is in `got`."""

    def __init__(self, badge, path):
        self.process = Popen([badge, path], stdin=PIPE, stdout=PIPE, stderr=PIPE, bufsize=0)
        self.guard = threading.Timer(LIMIT, self.process.kill)
        self.guard.daemon = True  # a failure ends this program at once, and with it the line, which ends the badge
        self.guard.start()
        self.began = time.monotonic()
        self.got = b""

    def hear(self, count):
        end = len(self.got) + count
        while len(self.got) < end:
            data = self.process.stdout.read(end - len(self.got))
            if not data:
                break
            self.got += data

    def say(self, data):
        try:
            self.process.stdin.write(data)
        except BrokenPipeError:
            pass

    def outcome(self):
        """Waits for its end: exit status, what it printed, and after how many seconds."""
        text = self.process.stderr.read().decode()
        status = self.process.wait()
        self.guard.cancel()
        return status, text, time.monotonic() - self.began

    def end(self):
        self.process.stdin.close()
        self.hear(1 << 20)
        return self.outcome()


def drawn_question(s, named):
    words = [random.randrange(1, Q) for _ in range(s.eta + s.m)]
    indices = sorted(random.sample(range(s.leaves), s.l))
    return Question(s, named[:DIGEST_BYTES], named[DIGEST_BYTES:], words[: s.eta], words[s.eta :], indices)


def pieces_of(question):
    """A question as it is sent: up to the challenges, the points, the indices."""
    s, data = question.sizes, smallwood.write_question(question)
    first = HEADER_BYTES + NAMED + 4 * s.eta
    return [data[:first], data[first : first + 4 * s.m], data[first + 4 * s.m :]]


def converse(badge, path, s, change):
    """Sends the pieces that `change` makes of a question's, each when the answer to the one before is there."""
    talk = Talk(badge, path)
    talk.hear(NAMED)
    must(len(talk.got) == NAMED, "the badge sends root and salt")
    question = drawn_question(s, talk.got)
    lengths = [4 * s.width * s.eta, 4 * s.width * s.m, smallwood.reply_bytes_to(question)]
    pieces = change(pieces_of(question))
    for piece, length in zip(pieces, lengths + [0]):
        talk.say(piece)
        if piece is not pieces[-1]:
            talk.hear(length)
    return question, lengths, talk, talk.end()


def ask_rightly(badge, path, s):
    """The second implementation is the reader: it accepts, with the polynomials' values."""
    question, lengths, talk, (status, text, _) = converse(badge, path, s, lambda pieces: pieces)
    must((status, text) == (0, ""), "the badge answers %d points: %d %s" % (s.m, status, text))
    must(len(talk.got) == NAMED + sum(lengths), "it sends as much as it should")
    answers, reply = talk.got[NAMED : -lengths[2]], talk.got[-lengths[2] :]
    must(reply.startswith(answers), "the reply has the answers that came before")
    number, _, values = smallwood.check(smallwood.write_question(question), reply, [0] * (s.w * s.m))
    polynomials = polynomials_in(path, s)
    true = [evaluate(p, z) for z in question.points for p in polynomials]
    must((number, values) == (0, true), "the second implementation accepts the reply, with the polynomials' values")


ENDED, LATE = "the other side ended too soon", "the other side took too long"
OTHER = "the question has other sizes, or is about another commitment"
POINTS = "the question has no points, or more than there are blinding rows"
ZERO = "the point 0 is asked"
AGAIN = "a second question is asked"
ELEMENT = "an element is not below q"
RISING = "the indices do not rise strictly, or one is not below N"
M_AT = 13  # in the header

# What is wrong; what is made of the pieces; how many answers the badge has given when it refuses; and what it says.
Wrong = namedtuple("Wrong", "what change answers text")


def wrong_piece(what, number, alter, text):
    return Wrong(what, lambda pieces: pieces[:number] + [alter(pieces[number])], number, text)


def put(at, data):
    return lambda piece: piece[:at] + data + piece[at + len(data) :]


def flip(at):
    return lambda piece: piece[:at] + bytes([piece[at] ^ 1]) + piece[at + 1 :]


def wrong_questions(s):
    zero, q, first = to_bytes([0]), to_bytes([Q]), HEADER_BYTES + NAMED
    for at in range(HEADER_BYTES + NAMED):
        if at != M_AT:
            yield wrong_piece("another byte %d" % at, 0, flip(at), OTHER)
    for m in 0, s.beta + 1, 255:
        yield wrong_piece("%d points" % m, 0, put(M_AT, bytes([m])), POINTS)
    for k in range(s.eta):
        yield wrong_piece("challenge %d is q" % k, 0, put(first + 4 * k, q), ELEMENT)
    for p in range(s.m):
        yield wrong_piece("point %d is 0" % p, 1, put(4 * p, zero), ZERO)
        yield wrong_piece("point %d is q" % p, 1, put(4 * p, q), ELEMENT)
    yield wrong_piece("equal leaves", 2, lambda piece: piece[2:4] + piece[2:], RISING)
    yield wrong_piece("falling leaves", 2, lambda piece: piece[2:4] + piece[:2] + piece[4:], RISING)
    yield wrong_piece("leaf N", 2, lambda piece: piece[:-2] + s.leaves.to_bytes(2, "little"), RISING)
    for number in range(3):
        yield wrong_piece("piece %d is cut" % number, number, lambda piece: piece[:-1], ENDED)
        yield wrong_piece("piece %d is not sent" % number, number, lambda piece: b"", ENDED)
    yield Wrong("a byte after the question", lambda pieces: pieces[:2] + [pieces[2] + b"\0"], 3, AGAIN)
    yield Wrong("a question after the reply", lambda pieces: pieces + [b"".join(pieces)], 3, AGAIN)


def must_refuse(what, status, text, why):
    expected = 1, "badge: refused: %s\n" % why
    must((status, text) == expected, "%s: it ends with %d, %r instead of %d, %r" % (what, status, text, *expected))


def ask_wrongly(badge, path, s, wrong):
    _, lengths, talk, (status, text, _) = converse(badge, path, s, wrong.change)
    must_refuse(wrong.what, status, text, wrong.text)
    must(len(talk.got) == NAMED + sum(lengths[: wrong.answers]), "%s: nothing more is sent" % wrong.what)


def lend_wrong_file(badge, path, data, text):
    """A badge that begins with such a file commits to nothing."""
    path = Path(path + ".wrong")
    if data is not None:
        path.write_bytes(data)
    talk = Talk(badge, str(path))
    status, printed, _ = talk.end()
    path.unlink(missing_ok=True)
    must_refuse("a wrong file", status, printed, text)
    must(talk.got == b"", "a wrong file: nothing is sent")


def try_files(badge, path):
    data = Path(path).read_bytes()
    for wrong in None, b"", data[:-1], data + b"\0":
        lend_wrong_file(badge, path, wrong, "the file has not the length of the polynomials")
    for at in 0, len(data) - 4:
        lend_wrong_file(badge, path, put(at, to_bytes([Q]))(data), ELEMENT)


def try_time(badge, path, s):
    """Readers that hold the line: each badge ends after its time. One that goes away does not end it by a signal."""
    seconds = constant("conversation.h", "SECONDS")
    silent, dripping, deaf, gone = (Talk(badge, path) for _ in range(4))
    fcntl.fcntl(deaf.process.stdout, fcntl.F_SETPIPE_SZ, 4096)
    for talk in silent, dripping, gone:
        talk.hear(NAMED)
    gone.process.stdout.close()
    gone.say(pieces_of(drawn_question(s, gone.got))[0])
    status, text, _ = gone.outcome()
    must_refuse("a reader goes away", status, text, ENDED)
    root_and_salt = deaf.process.stdout.read(NAMED)
    deaf.say(b"".join(pieces_of(drawn_question(s, root_and_salt))))
    while dripping.process.poll() is None and time.monotonic() < dripping.began + 3 * seconds:
        dripping.say(b"S")
        time.sleep(0.2)
    for talk in silent, dripping, deaf:
        status, text, after = talk.outcome()
        must_refuse("the time is over", status, text, LATE)
        must(seconds <= after < 3 * seconds, "the badge ends after its time, not after %.1f seconds" % after)


def try_readers(badge, path):
    s = example_sizes()
    for m in range(1, s.beta + 1):
        ask_rightly(badge, path, example_sizes(m))
    print("ok: the second implementation accepts the badge's replies to 1 to %d points" % s.beta)
    wrong = list(wrong_questions(s))
    for each in wrong:
        ask_wrongly(badge, path, s, each)
    print("ok: %d wrong questions are refused, and no byte too many is sent" % len(wrong))
    try_files(badge, path)
    print("ok: wrong files are refused")
    try_time(badge, path, s)
    print("ok: no reader holds a badge for longer than its time")


# Word: what is done, and the files that it takes.
TASKS = {
    "polynomials": (draw_polynomials, (writable,)),
    "values": (compare_values, (present, present)),
    "honest": (lambda log: compare_forged(log, True), (present,)),
    "forged": (lambda log: compare_forged(log, False), (present,)),
    "readers": (try_readers, (runnable, present)),
    "digests": (compare_digests, (present,)),
    "lists": (compare_lists, (present,) * 4),
}


def main():
    parser = Arguments(__doc__)
    parser.add_argument("task", choices=TASKS)
    parser.add_argument("files", nargs="*", metavar="FILE")
    given = parser.parse_args()
    task, kinds = TASKS[given.task]
    if len(given.files) != len(kinds):
        parser.error("%s takes %d files" % (given.task, len(kinds)))
    try:
        files = [str(kind(word)) for kind, word in zip(kinds, given.files)]
    except ArgumentTypeError as error:
        parser.error(str(error))
    task(*files)


if __name__ == "__main__":
    main()
