"""Writes inputs of both checks, of replies and of proofs, and of the interpolation with their expected outcomes to a
file, for soak.c.

    python3 soak_inputs.py FILE

The file: the number of checks, then for each whether it is a proof, its kappa (0 for a reply), the lengths of
question, reply or proof, and value buffer, and the expected number (32 bits each), then question, reply or proof,
value buffer before, value buffer after. Then the number of interpolations, and for each the numbers of points, values
and coefficients, and the expected number, then points, values, coefficients before, coefficients after.
"""

import struct
import time

import paths  # noqa: F401  (makes the modules below importable)
from arguments import Arguments, writable
from cases import CHECK_GROUPS, CheckCase, honest_cases
from drawn import drawn_inputs
from interpolations import InterpolateCall, refused_interpolations
from proofs import PROOF_GROUPS, ProofCase, honest_proofs
from smallwood import to_bytes

DRAWN = 5000
LINE_EVERY = 3  # seconds


def inputs():
    """All groups but the slow ones; what is accepted stands in the others and among the drawn inputs too, and soak.c
    makes its own."""
    for group in CHECK_GROUPS + PROOF_GROUPS:
        if group not in (honest_cases, honest_proofs):
            yield from group()
    yield from refused_interpolations()
    yield from drawn_inputs(DRAWN, seed=1000)


def written_check(case):
    is_proof = isinstance(case, ProofCase)
    checked, kappa = (case.proof, case.kappa) if is_proof else (case.reply, 0)
    lengths = len(case.question), len(checked), len(case.buffer)
    head = struct.pack("<6I", is_proof, kappa, *lengths, case.number)
    return head + case.question + checked + case.buffer + case.after


def written_interpolation(case):
    lengths = len(case.points), len(case.values), len(case.coefficients)
    slices = case.points, case.values, case.coefficients, case.coefficients_after
    return struct.pack("<4I", *lengths, case.number) + b"".join(map(to_bytes, slices))


def shown(cases):
    """The same, with a line from time to time."""
    shown_at = time.monotonic()
    for number, case in enumerate(cases):
        if time.monotonic() >= shown_at + LINE_EVERY:
            shown_at = time.monotonic()
            print("soak inputs: %d made" % number, flush=True)
        yield case


def main():
    parser = Arguments(__doc__)
    parser.add_argument("path", metavar="FILE", type=writable, help="to be written")
    path = parser.parse_args().path
    cases = list(shown(inputs()))
    checks = [written_check(case) for case in cases if isinstance(case, (CheckCase, ProofCase))]
    interpolations = [written_interpolation(case) for case in cases if isinstance(case, InterpolateCall)]
    with open(path, "wb") as file:
        for written in checks, interpolations:
            file.write(struct.pack("<I", len(written)) + b"".join(written))
    print("soak inputs: %d checks, %d interpolations written" % (len(checks), len(interpolations)), flush=True)


if __name__ == "__main__":
    main()
