"""Compares a compiled library, checking program and program `counts` with the second implementation in reference/.

    python3 conformance.py CALLER [--program PROGRAM] [--counts COUNTS] [--long N] [--seed S]

CALLER is conformance.c linked with the archive, PROGRAM the compiled checking program, COUNTS the program that
prints verdict and permutations of the check of each file that it is given. Without --long: every case of
reference/cases.py and some drawn inputs. With --long N: N drawn inputs instead, and the programs on every case.
Numbers, every slice after the call, the bytes beside the slices and the programs' whole output are compared.
The last line is a summary; the exit status is 1 after a difference.
"""

import struct
import subprocess
import sys
import tempfile
import time
from collections import Counter
from pathlib import Path

import paths  # noqa: F401  (makes the modules below importable)
from arguments import Arguments, runnable, whole
from calls import CommitCall, LengthCall, OpenCall, PermutationsCall
from cases import (
    CHECK_GROUPS, CheckCase, commit_calls, honest_cases, length_calls, open_calls, permutations_calls, place_cases,
    program_borders, program_case,
)  # fmt: skip
from drafts import case_p, large_drafts, small_drafts, small_proofs
from drawn import BLOCK, drawn_inputs
from interpolations import InterpolateCall, interpolate_calls
from proofs import PROOF_GROUPS, ProofCase, ProveCall, honest_proofs, prove_calls
from smallwood import counts_line, to_bytes

SHOWN = 10  # differences after which a run stops
DRAWN = 1000  # drawn inputs of a run without --long
EVERY = 12  # the programs get one of so many check cases without --long
BATCH = 500  # files that the program `counts` gets at once
UNTOUCHED = 0x1122334455667788  # the length or count before a call that may write it
# As conformance.c has them.
KINDS = {
    "commit": b"c", "length": b"l", "permutations": b"n", "open": b"o", "check": b"k", "prove": b"p", "proof": b"q",
    "interpolate": b"i",
}  # fmt: skip
FLAGS = {1: "bytes beside a slice changed", 2: "the outcome depends on where the slices stand"}

COMMIT_SLICES = ("coefficients", "tails", "blinds", "masks", "nonces", "salt", "table", "tree")
OPEN_SLICES = ("question", "coefficients", "tails", "blinds", "masks", "table", "nonces", "salt", "tree", "buffer")
CHECK_SLICES = ("question", "reply", "buffer")
PROOF_SLICES = ("question", "proof", "buffer")
INTERPOLATE_SLICES = ("points", "values", "coefficients")


class Broken(Exception):
    """The caller or the program did not answer."""


# ---- Calls ------------------------------------------------------------------------------------------


class Call:
    """One call of an entry: what is sent to the caller, and what has to come back."""

    def __init__(self, label, entry, head, slices, number, length, after):
        self.label, self.entry, self.number, self.length = label, entry, number, length
        self.names = list(slices)
        self.before = [raw(contents) for contents in slices.values()]
        self.after = [raw(after.get(name, contents)) for name, contents in slices.items()]
        self.empty = any(len(contents) == 0 for contents in slices.values())
        parts = [KINDS[entry], head]
        for contents, data in zip(slices.values(), self.before):
            parts += [struct.pack("<I", len(contents)), data]
        self.message = b"".join(parts)


def raw(contents):
    return contents if isinstance(contents, bytes) else to_bytes(contents)


def commit(label, sizes, slices, number, after):
    return Call(label, "commit", struct.pack("<7I", *sizes), slices, number, 0, after)


def written(length):
    """The length or count after a call: a refusal, which has none, leaves what was there."""
    return UNTOUCHED if length is None else length


def planned(label, entry, question, number, length):
    """A call of one of the planners' entries: the reply's length, or the check's permutations."""
    return Call(label, entry, struct.pack("<Q", UNTOUCHED), {"question": question}, number, written(length), {})


def opened(label, slices, number, length, after):
    return Call(label, "open", struct.pack("<Q", UNTOUCHED), slices, number, written(length), after)


def check(label, slices, number, after):
    return Call(label, "check", b"", slices, number, 0, after)


def proved(label, kappa, limit, slices, number, length, after):
    head = struct.pack("<IIQ", kappa, limit, UNTOUCHED)
    return Call(label, "prove", head, slices, number, written(length), after)


def proof(label, kappa, slices, number, after):
    return Call(label, "proof", struct.pack("<I", kappa), slices, number, 0, after)


def interpolated(label, slices, number, after):
    return Call(label, "interpolate", b"", slices, number, 0, after)


def call_of(case):
    """The call that a case of the second implementation describes."""
    if isinstance(case, InterpolateCall):
        slices = {name: getattr(case, name) for name in INTERPOLATE_SLICES}
        return interpolated(case.label, slices, case.number, {"coefficients": case.coefficients_after})
    if isinstance(case, ProofCase):
        slices = {name: getattr(case, name) for name in PROOF_SLICES}
        return proof(case.label, case.kappa, slices, case.number, {"buffer": case.after})
    if isinstance(case, ProveCall):
        slices, after = {name: getattr(case, name) for name in OPEN_SLICES}, {"buffer": case.buffer_after}
        return proved(case.label, case.kappa, case.limit, slices, case.number, case.length, after)
    if isinstance(case, CheckCase):
        slices = {name: getattr(case, name) for name in CHECK_SLICES}
        return check(case.label, slices, case.number, {"buffer": case.after})
    if isinstance(case, CommitCall):
        slices = {name: getattr(case, name) for name in COMMIT_SLICES}
        after = {"table": case.table_after, "tree": case.tree_after}
        return commit(case.label, case[1:8], slices, case.number, after)
    if isinstance(case, LengthCall):
        return planned(case.label, "length", case.question, case.number, case.length)
    if isinstance(case, PermutationsCall):
        return planned(case.label, "permutations", case.question, case.number, case.count)
    assert isinstance(case, OpenCall)
    slices = {name: getattr(case, name) for name in OPEN_SLICES}
    return opened(case.label, slices, case.number, case.length, {"buffer": case.buffer_after})


def empty_calls():
    """Calls in which every slice, or every slice but one, is empty."""

    def empty(names, **others):
        return dict(dict.fromkeys(names, b""), **others)

    question = case_p().question()
    yield commit("empty: commit, sizes 1", [1] * 7, empty(COMMIT_SLICES), 2, {})
    yield commit("empty: commit, sizes 1 and beta 0", [1] * 6 + [0], empty(COMMIT_SLICES), 2, {})
    yield commit("empty: commit, sizes 0", [0] * 7, empty(COMMIT_SLICES), 1, {})
    yield commit("empty: commit, sizes 2^32 - 1", [2**32 - 1] * 7, empty(COMMIT_SLICES), 1, {})
    for entry in ("length", "permutations"):
        yield planned("empty: " + entry, entry, b"", 6, None)
    yield opened("empty: open", empty(OPEN_SLICES), 6, None, {})
    yield opened("empty: open, but the question", empty(OPEN_SLICES, question=question), 2, None, {})
    yield check("empty: check", empty(CHECK_SLICES), 6, {})
    yield check("empty: check, but the question", empty(CHECK_SLICES, question=question), 2, {})
    yield check("empty: check, reply", empty(CHECK_SLICES, question=question, buffer=bytes(4)), 7, {})
    yield interpolated("empty: interpolate", empty(INTERPOLATE_SLICES), 1, {})
    for part, alone, others in (("points", 2, 1), ("values", 1, 2), ("coefficients", 1, 2)):
        lent = empty(INTERPOLATE_SLICES, **{part: [7]})
        yield interpolated("empty: interpolate, but %s" % part, lent, alone, {})
        lent = dict(dict.fromkeys(INTERPOLATE_SLICES, [7]), **{part: []})
        yield interpolated("empty: interpolate, %s" % part, lent, others, {})
    question = small_proofs()[0].question()
    for kappa, number in ((0, 2), (16, 2), (17, 1), (2**32 - 1, 1)):
        label, asked = "empty: kappa %d, " % kappa, dict(question=question)
        yield proved(label + "prove", kappa, 2**32 - 1, empty(OPEN_SLICES), 6, None, {})
        yield proved(label + "prove, but the question", kappa, 0, empty(OPEN_SLICES, **asked), number, None, {})
        yield proof(label + "proof", kappa, empty(PROOF_SLICES), 6, {})
        yield proof(label + "proof, but the question", kappa, empty(PROOF_SLICES, **asked), number, {})
        values = empty(PROOF_SLICES, **asked, buffer=bytes(4))
        yield proof(label + "proof, but question and values", kappa, values, 7 if kappa <= 16 else 1, {})


def call_groups(drawn, seed):
    """(name, calls) of every group; the quick groups come first."""
    yield "empty slices", empty_calls()
    quick = [group for group in CHECK_GROUPS if group not in (honest_cases, place_cases)]
    quick += [group for group in PROOF_GROUPS if group is not honest_proofs]
    for group in quick + [interpolate_calls, length_calls, permutations_calls, place_cases]:
        yield group.__name__, map(call_of, group())
    yield "drawn inputs", map(call_of, drawn_inputs(drawn, seed))
    for group in (commit_calls, open_calls, prove_calls, honest_proofs, honest_cases):
        yield group.__name__, map(call_of, group())


class Caller:
    """The running program that has the archive's entries."""

    def __init__(self, path):
        self.process = subprocess.Popen([path], stdin=subprocess.PIPE, stdout=subprocess.PIPE)
        self.calls = self.null_calls = 0

    def read(self, count):
        data = self.process.stdout.read(count)
        if len(data) != count:
            raise Broken("the call did not return (exit status %s)" % self.process.wait())
        return data

    def differences(self, call):
        """What is different after the call: a list of short texts."""
        try:
            self.process.stdin.write(call.message)
            self.process.stdin.flush()
        except BrokenPipeError:
            pass  # reading will say it
        number, length, flags, calls = struct.unpack("<IQII", self.read(20))
        self.calls += calls
        self.null_calls += call.empty
        found = []
        if number != call.number:
            found.append("returned %d, expected %d" % (number, call.number))
        if length != call.length:
            found.append("length or count is %d, expected %d" % (length, call.length))
        found += [text for bit, text in FLAGS.items() if flags & bit]
        for name, before, wanted in zip(call.names, call.before, call.after):
            data = self.read(len(before))
            if data != wanted:
                at = next(i for i, (a, b) in enumerate(zip(data, wanted)) if a != b)
                found.append("%s differs at byte %d: %d, expected %d" % (name, at, data[at], wanted[at]))
        return found

    def close(self):
        """Ends the caller; also one that waits for more."""
        try:
            self.process.stdin.close()
        except BrokenPipeError:
            pass
        self.process.stdout.close()
        return self.process.wait()


# ---- The checking program ---------------------------------------------------------------------------


def run_whole(path, data):
    return subprocess.run([path], input=data, stdout=subprocess.PIPE, stderr=subprocess.PIPE, timeout=60)


def run_in_pieces(path, data):
    """The input arrives in pieces, so that one read does not give it all."""
    cuts = [0, 5, 100, 5000, 40000, len(data)]
    pipes = dict.fromkeys(("stdin", "stdout", "stderr"), subprocess.PIPE)
    with subprocess.Popen([path], **pipes) as process:
        for start, end in zip(cuts, cuts[1:]):
            time.sleep(0.005)
            try:
                process.stdin.write(data[start:end])
                process.stdin.flush()
            except BrokenPipeError:
                break
        out, err = process.communicate(timeout=60)
    return subprocess.CompletedProcess(path, process.returncode, out, err)


def program_differences(path, case, run):
    try:
        done = run(path, case.input)
    except (OSError, subprocess.TimeoutExpired) as error:
        raise Broken("the program did not run: %s" % error)
    found = []
    if done.returncode != 0:
        found.append("exit status %d" % done.returncode)
    if done.stderr:
        found.append("wrote to standard error: %r" % done.stderr[:80])
    if done.stdout != case.output:
        found.append("printed %r, expected %r" % (done.stdout[:80], case.output[:80]))
    return found


def program_groups(checks, every):
    """(name, cases, how to run the program): its borders, check cases, and inputs that come in pieces."""
    chosen = [call for call in checks if not call.label.startswith("buffer")][::every]
    inputs = (program_case(call.label, call.before[0] + call.before[1]) for call in chosen)
    data = [d.question() + d.reply() for d in small_drafts() + large_drafts()]
    data += [b"", b"SWQ", bytes(14), bytes(65536), bytes(65537), data[-1] + bytes(65536)]
    pieces = (program_case("program: in pieces, input %d" % n, each) for n, each in enumerate(data))
    yield "program borders", program_borders(), run_whole
    yield "program inputs", inputs, run_whole
    yield "in pieces", pieces, run_in_pieces


# ---- The program `counts` ---------------------------------------------------------------------------


def run_counts(path, inputs):
    """Its run with these inputs as files."""
    with tempfile.TemporaryDirectory() as folder:
        for name, data in inputs.items():
            (Path(folder) / name).write_bytes(data)
        try:
            done = subprocess.run([Path(path).resolve(), *inputs], cwd=folder, capture_output=True, timeout=60)
        except (OSError, subprocess.TimeoutExpired) as error:
            raise Broken("the program `counts` did not run: %s" % error)
    if done.returncode != 0 or done.stderr:
        raise Broken("the program `counts`: exit status %d, error %r" % (done.returncode, done.stderr[:80]))
    return done.stdout


def counts_differences(path, inputs):
    """For each of these inputs what is different in the two lines about it."""
    lines = run_counts(path, inputs).splitlines(keepends=True)
    found = []
    for n, (name, data) in enumerate(inputs.items()):
        printed, wanted = b"".join(lines[2 * n : 2 * n + 2]), name.encode() + b"\n" + counts_line(data)
        found.append([] if printed == wanted else ["printed %r, expected %r" % (printed[:80], wanted)])
    if len(lines) > 2 * len(inputs):
        found[-1].append("printed more lines")
    return found


# ---- The run ----------------------------------------------------------------------------------------


class Run:
    def __init__(self, caller, program=None, counts_program=None, shown=SHOWN):
        self.caller, self.program, self.counts_program, self.shown = Caller(caller), program, counts_program, shown
        self.counts, self.numbers, self.failed = Counter(), Counter(), []
        self.waiting = []  # labels and inputs for the program `counts`

    def fail(self, label, texts):
        self.failed.append(label)
        print("DIFFERENT %s\n    %s" % (label, "; ".join(texts)), flush=True)

    def compare(self, kind, label, differences):
        """Counts one comparison; `differences` is a function without arguments."""
        self.counts[kind] += 1
        try:
            found = differences()
        except Broken as error:
            self.fail(label, [str(error)])
            raise
        if found:
            self.fail(label, found)
            if len(self.failed) >= self.shown:
                raise Broken("%d differences" % self.shown)

    def call(self, call):
        self.numbers[call.number] += 1
        self.compare(call.entry, call.label, lambda: self.caller.differences(call))

    def run_program(self, case, run):
        self.compare("program", case.label, lambda: program_differences(self.program, case, run))

    def count_later(self, label, data):
        """Gives the program `counts` this input, with others."""
        if self.counts_program:
            self.waiting.append((label, data))
        if len(self.waiting) == BATCH:
            self.count_waiting()

    def count_waiting(self):
        waiting, self.waiting = self.waiting, []
        if not waiting:
            return
        found = []

        def differences(n):
            if not found:
                inputs = {"%d" % n: data for n, (_, data) in enumerate(waiting)}
                found.extend(counts_differences(self.counts_program, inputs))
            return found[n]

        for n, (label, _) in enumerate(waiting):
            self.compare("counts", "counts: " + label, lambda: differences(n))

    def group(self, label, cases, act):
        start, count = time.time(), 0
        for case in cases:
            act(case)
            count += 1
        print("%-18s %7d in %6.1f s" % (label, count, time.time() - start), flush=True)

    def everything(self, drawn, seed, every):
        checks = []

        def act(call):
            self.call(call)
            if call.entry == "check":
                self.count_later(call.label, call.before[0] + call.before[1])
                if not call.label.startswith("drawn"):
                    checks.append(call)

        for label, calls in call_groups(drawn, seed):
            self.group(label, calls, act)
        if self.program:
            for label, cases, run in program_groups(checks, every):
                self.group(label, cases, lambda case: self.run_program(case, run))
        for case in program_borders():
            self.count_later(case.label, case.input)
        self.count_waiting()

    def finish(self, seconds):
        """The summary; whether all was equal."""
        status = self.caller.close()
        if status != 0 and not self.failed:
            self.fail("end of the caller", ["exit status %d" % status])
        numbers = " ".join("%d:%d" % pair for pair in sorted(self.numbers.items()))
        calls = self.caller.calls, self.caller.null_calls
        print("numbers expected: %s; entries called %d times, %d with NULL" % (numbers, *calls))
        if not self.program:
            print("no checking program was given: it is not compared")
        if not self.counts_program:
            print("no program `counts` was given: the permutations that a check returns are not compared")
        kinds = "check", "commit", "length", "permutations", "open", "prove", "proof", "interpolate"
        counts = ", ".join("%d %s" % (self.counts[kind], kind) for kind in (*kinds, "program", "counts"))
        outcome = "%d DIFFERENT, first: %s" % (len(self.failed), self.failed[0]) if self.failed else "all equal"
        print("conformance: %s inputs in %.0f s: %s" % (counts, seconds, outcome), flush=True)
        return not self.failed


def main():
    parser = Arguments(__doc__)
    parser.add_argument("caller", metavar="CALLER", type=runnable, help="conformance.c linked with the archive")
    parser.add_argument("--program", metavar="FILE", type=runnable, help="the compiled checking program")
    parser.add_argument("--counts", metavar="FILE", type=runnable, help="the compiled program `counts`")
    parser.add_argument("--long", metavar="N", type=whole, help="N drawn inputs, and the program on every case")
    seed_help = "of the first %d drawn inputs (default 1)" % BLOCK
    parser.add_argument("--seed", metavar="N", type=whole, default=1, help=seed_help)
    options = parser.parse_args()
    start, run = time.time(), Run(options.caller, options.program, options.counts)
    try:
        run.everything(options.long or DRAWN, options.seed, 1 if options.long else EVERY)
    except Broken:
        pass  # has been shown
    return 0 if run.finish(time.time() - start) else 1


if __name__ == "__main__":
    sys.exit(main())
