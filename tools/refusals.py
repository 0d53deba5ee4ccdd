"""Tests that the scripts in tools/ and the Python programs there and in reference/ refuse what is wrong.

    python3 refusals.py

Each is tried in a copy of the repository, with compilers and a prover on the path that do nothing but note that they
were called. It has to end at once with exit status 2, to print one line on standard error that begins with its name and
nothing else, to call none of them and to write no file. What is tried follows from what --help says, so that a new
script is taken as it is:

    tools/NAME WORD     a line that begins so says which words are taken; small letters are a word as it stands
    --option FILE       an option, and that it takes a value
    Needs gcc and rt.   what it cannot do without: those of WATCHED, python3, and what it tests for by `need`. What an
                        option or a word alone needs stands in LACKING below

A script that is wrong in one way after the other is tried first, and has to be found out each time. The exit status
is 1 where something is not refused as it should be.
"""

import os
import re
import shutil
import signal
import subprocess
import sys
import tempfile
from pathlib import Path

import paths  # noqa: F401  (makes the module below importable)
from arguments import Arguments

ROOT = Path(__file__).resolve().parent.parent
LIMIT = 5  # seconds; a refusal takes a tenth of one, and the machine may be busy
WATCHED = "rt gcc cc clang g++ c++ clang++ ld ar nm objcopy objdump valgrind".split()
NUMBERS = ("N", "S", "SECONDS")  # values that are whole numbers from 1 on
FILES = ("FILE", "CALLER")  # values that are files that have to be there, or to be written in a folder that is there

# Files in the folder in which all is tried.
ARCHIVE, TEXT, ABSENT = "archive.a", "text", "no-such-folder/no-such-file"

# Words that are right; for all others "made".
TAKEN = {"CALLER": "/bin/sh", "FILE": TEXT, **dict.fromkeys(NUMBERS, "5")}

# What does not follow from --help: words that are to be refused, and words with the tool that is missing then.
EXTRA = {
    "conformance.sh": (
        ("--faults", "--long", "5"), ("--faults", "--archive", ARCHIVE), ("--faults", "--stand-in"),
        ("--faults", "--faults"), ("--program", TEXT), ("--counts", TEXT),
        ("--without-program", "--program", "/bin/sh"), ("--without-program", "--counts", "/bin/sh"),
    ),
    "conformance.py": (("/bin/sh", "--program", TEXT),),
    "conformance_faults.py": (("folder", "--cc", "no-such-compiler"), (TEXT,)),
    "growth_svg.py": (("--from", TEXT), ("--check", "--to", "absent.svg")),
    "house.py": (("--prune", "--selftest"),),
    "references.py": ((), (TEXT,), (ABSENT,), ("--selftest", ".")),
    "release.sh": (
        ("--twice", "--rebuilt"), ("--references", "--references"), ("--references", "--archive", ARCHIVE),
        ("--rebuilt", "--archive", ARCHIVE), ("--twice", "--archive", ARCHIVE),
    ),
    "sizes.py": (
        (), ("--bits", "80"), ("--coefficients", "34", "--polynomials", "4"), ("--check", "--selftest"),
        ("--coefficients", "34", "--polynomials", "4", "--bits", "129"), ("--check", "--bits", "80"),
        ("--leaves", "256", "--columns", "4", "--bits", "80", "--eta", "4"),
        ("--leaves", "300", "--columns", "4", "--bits", "80"),
    ),
    "sizes_svg.py": (("--from", TEXT), ("--check", "--to", "absent.svg")),
    "soak_inputs.py": ((".",),),
}  # fmt: skip
LACKING = {
    "bench.sh": (
        (("instructions",), "valgrind"), (("products",), "python3"), (("--stand-in",), "ar"),
        *((("--archive", ARCHIVE, "--before", ARCHIVE), tool) for tool in ("ld", "nm", "objcopy")),
    ),
    "bench_sponge.sh": tuple((("--before", ARCHIVE), tool) for tool in ("ld", "nm", "objcopy")),
    "conformance.sh": ((("--faults",), "gcc"), (("--archive", ARCHIVE), "rt"), (("--stand-in",), "ar")),
    "permutations.sh": ((("--stand-in",), "ar"),),
    "release.sh": ((("--references",), "python3"),),
    "soak.sh": ((("5", "--stand-in"), "ar"),),
}  # fmt: skip


# ---- Where it is tried ------------------------------------------------------------------------------


class Place:
    """A copy of the repository, a folder to run in, and a path with watched tools."""

    def __init__(self, folder):
        self.copy, self.here, self.path = folder / "copy", folder / "here", folder / "path"
        self.called, self.aside = folder / "called", folder / "aside"
        shutil.copytree(ROOT, self.copy, symlinks=True, ignore=shutil.ignore_patterns("target", "out", ".git", "__pycache__"))
        for made in self.here, self.path, self.aside:
            made.mkdir()
        (self.here / ARCHIVE).write_bytes(b"!<arch>\n")
        (self.here / TEXT).write_text("no table\n")
        self.link_tools(folder / "watched")
        home = {"PATH": str(self.path), "HOME": str(self.here), "PYTHONDONTWRITEBYTECODE": "1"}
        self.environment = {k: v for k, v in os.environ.items() if k not in ("CC", "CFLAGS")} | home
        self.known = self.files()

    def link_tools(self, watched):
        for folder in os.environ["PATH"].split(os.pathsep):
            for tool in Path(folder).glob("*") if os.path.isabs(folder) else ():
                if not os.path.lexists(self.path / tool.name):
                    (self.path / tool.name).symlink_to(tool)
        watched.write_text('#!/bin/sh\necho "${0##*/}" >> "%s"\nexit 1\n' % self.called)
        watched.chmod(0o755)
        for tool, target in [*((name, watched) for name in WATCHED), ("python3", sys.executable)]:
            (self.path / tool).unlink(missing_ok=True)
            (self.path / tool).symlink_to(target)

    def written(self):
        """Files that are new, changed or gone since this was asked before."""
        before, self.known = self.known, self.files()
        return sorted(path for path in {*before, *self.known} if before.get(path) != self.known.get(path))

    def files(self):
        """Every file with its time and size, but for the folders: an empty one may be made."""
        found = {}
        for top in self.copy, self.here:
            for folder, _, names in os.walk(top):
                for name in names:
                    state = os.lstat(os.path.join(folder, name))
                    found[os.path.join(folder, name)] = state.st_mtime_ns, state.st_size
        return found


# ---- One run ----------------------------------------------------------------------------------------


class Run:
    """What a program did with these words, and without this tool."""

    def __init__(self, place, program, words, lacking=None, limit=LIMIT):
        self.name, self.words, self.lacking = program.name, words, lacking
        place.called.write_text("")
        hidden = lacking and os.path.lexists(place.path / lacking)
        if hidden:
            (place.path / lacking).rename(place.aside / lacking)
        start = [sys.executable, "-B", program] if program.suffix == ".py" else [program]
        pipes = dict(stdin=subprocess.DEVNULL, stdout=subprocess.PIPE, stderr=subprocess.PIPE)
        process = subprocess.Popen(
            [*start, *words], cwd=place.here, env=place.environment, start_new_session=True, errors="replace", **pipes
        )
        try:
            self.out, self.err = process.communicate(timeout=limit)
            self.status = process.returncode
        except subprocess.TimeoutExpired:
            os.killpg(process.pid, signal.SIGKILL)  # the group that it leads
            self.out, self.err = process.communicate()
            self.status = None
        if hidden:
            (place.aside / lacking).rename(place.path / lacking)
        self.called = place.called.read_text().split()
        self.wrote = place.written()

    def shown(self):
        return " ".join([self.name, *(word or "''" for word in self.words)]) + (
            " (without %s)" % self.lacking if self.lacking else ""
        )

    def did(self):
        """What neither a refusal nor --help may do."""
        if self.status is None:
            yield "does not end"
        if self.called:
            yield "calls %s" % ", ".join(self.called)
        if self.wrote:
            yield "writes %s" % ", ".join(Path(path).name for path in self.wrote[:3])

    def refusal_faults(self):
        yield from self.did()
        lines = self.err.splitlines()
        if self.status not in (2, None):
            yield "exit status %d" % self.status
        if len(lines) != 1:
            yield "%d lines on standard error" % len(lines)
        if lines and not lines[0].startswith(self.name + ": "):
            yield "its line does not begin with its name: %.60s" % lines[0]
        if self.lacking and lines and not re.search(r"(?<![\w+])%s(?![\w+])" % re.escape(self.lacking), lines[0]):
            yield "its line does not name %s: %.60s" % (self.lacking, lines[0])
        if self.out:
            yield "prints %d lines" % len(self.out.splitlines())

    def help_faults(self):
        yield from self.did()
        if self.status not in (0, None):
            yield "exit status %d" % self.status
        if self.name not in self.out:
            yield "does not print its usage"
        if self.err:
            yield "prints on standard error"


# ---- What --help says -------------------------------------------------------------------------------


def right(form):
    """Words as a usage line wants them."""
    return tuple(TAKEN.get(word, "made") if word.isupper() else word for word in (each.strip("[]") for each in form))


class Help:
    def __init__(self, program, text):
        self.text, self.source, name = text, program.read_text(), program.name
        if program.suffix == ".py":
            usage = re.search(r"usage: %s(.*?)(?:\n\n|\Z)" % re.escape(name), text, re.S)
            found = [" ".join(usage[1].split())] if usage else []
        else:
            found = re.findall(r"^ *tools/%s((?: [^ \n]+)*)" % re.escape(name), text, re.M)
        self.forms = [self.words_of(form) for form in found]

    @staticmethod
    def words_of(form):
        """The words that a usage line has beside its options: in capitals what stands for a word, in brackets what may
        be left out, of several words that stand for themselves the first."""
        form = re.sub(r"\{(\w+)[^}]*\}", r"\1", form).replace(" ...", "")
        return re.sub(r"\[?-{1,2}[a-z][a-z-]*(?: [A-Z]+)?\]?|\|", " ", form).split()

    def options(self):
        """option: the name of its value, or None"""
        found = {}
        for option, value in re.findall(r"(?<![\w-])(--[a-z][a-z-]*)(?: ([A-Z]+)\b)?", self.text):
            found[option] = found.get(option) or value or None
        return found

    def free_words(self):
        return {word.strip("[]") for form in self.forms for word in form if word.strip("[]").isupper()}

    def required(self):
        """Words with which it may be run: none where there is such a form."""
        return right(min(([word for word in form if word[0] != "["] for form in self.forms), key=len, default=()))

    def too_many(self):
        return (*right(max(self.forms, key=len, default=())), "word")

    def needs(self):
        """The tools that it says it needs; None where it says nothing."""
        sentence = re.search(r"(?:^|\.\s)Needs\b(.*?)(?:\.\s|\.$|\Z)", self.text, re.S | re.M)
        tools = {*WATCHED, "python3", *re.findall(r"\bneed ([\w+-]+)", self.source)}
        return sentence and sorted(tools.intersection(re.findall(r"[\w+-]+", sentence[1])))


# ---- What is tried ----------------------------------------------------------------------------------


def wrong_values(value):
    if value in NUMBERS:
        return "abc", "0", "-1", "1.5", ""
    return (ABSENT,) if value in FILES else ()


def wrong_options(said):
    """Lists of words that are to be refused for an option in them."""
    yield ("--no-such-option",)
    options = said.options()
    for option, value in {**options, "--help": None}.items():
        if option[:-1] not in options:
            yield (option[:-1], "5") if value else (option[:-1],)
        if value:
            yield (option,)
        for word in wrong_values(value):
            yield option, word
    if "--archive" in options:
        yield "--archive", TEXT
    if "--archive" in options and "--stand-in" in options:
        yield "--archive", ARCHIVE, "--stand-in"


def wrong_words(said):
    """Lists of words that are to be refused."""
    yield from ((*said.required(), *words) for words in wrong_options(said))
    if said.required():
        yield ()
    if not said.free_words():
        yield from (("no-such-word",), ("",))
    for value in said.free_words():
        yield from ((word,) for word in wrong_values(value))
    yield said.too_many()


def faults_of(place, program, limit=LIMIT):
    """How many runs were tried, and what was wrong: (what was run, what it did)"""
    asked = Run(place, program, ("--help",), limit=limit)
    said, wrong = Help(program, asked.out), [(asked.shown(), fault) for fault in asked.help_faults()]
    runs = [(words, None) for words in (*wrong_words(said), *EXTRA.get(program.name, ()))]
    if program.suffix == ".sh":
        runs += [(said.required(), tool) for tool in said.needs() or ()]
        runs += LACKING.get(program.name, ())
        if said.needs() is None:
            wrong.append((asked.shown(), "has no sentence `Needs ..`"))
    for words, lacking in runs:
        run = Run(place, program, words, lacking, limit)
        wrong += [(run.shown(), fault) for fault in run.refusal_faults()]
    return len(runs), wrong


def programs(copy):
    """Scripts that are not for sourcing, and Python files that are programs."""
    for path in sorted(copy.glob("tools/*.sh")):
        if path.read_text().startswith("#!"):
            yield path
    for path in sorted([*copy.glob("tools/*.py"), *copy.glob("reference/*.py")]):
        if path.read_text().startswith("#!") or '__name__ == "__main__"' in path.read_text():
            yield path


# ---- A script that is wrong -------------------------------------------------------------------------

CONTROL = """#!/bin/sh
# A control.
#
#     tools/control.sh
#
#     --seed N     a number
#
# Needs gcc.

set -eu
. "$(dirname "$0")/common.sh"
%s
takes=--seed
read_options "$@"
no_words
need gcc "for this"
"""

# Words, what is done when these come, and what has to be found.
CONTROLS = (
    ("--help", "exit 1", "exit status 1"),
    ("--help", "exit 0", "does not print its usage"),
    ("--help", "echo no >&2", "prints on standard error"),
    ("--no-such-option", "exit 0", "exit status 0"),
    ("--see 5", "echo control.sh: no >&2; exit 1", "exit status 1"),
    ("--hel", "echo control.sh: no >&2", "2 lines on standard error"),
    ("--seed", "exit 2", "0 lines on standard error"),
    ("--seed abc", "echo no >&2; exit 2", "its line does not begin with its name"),
    ("--seed 0", "echo begins", "prints 1 lines"),
    ("--seed -1", "gcc -v || :", "calls gcc"),
    ("--seed 1.5", "echo > left", "writes left"),
    ("--seed ", "echo >> \"$root/README.md\"", "writes README.md"),
    ("no-such-word", "sleep 60", "does not end"),
    ("", "[ $# -eq 0 ] || exit 0", "exit status 0"),
    ("word", "rt version || :", "calls rt"),
    ("", "command -v gcc > /dev/null || fail 'a tool is missing'", "its line does not name gcc"),
    ("", "command -v gcc > /dev/null || exit 0", "exit status 0"),
)


def control_faults(place, act, limit=1):
    script = place.copy / "tools" / "control.sh"
    script.write_text(CONTROL % act)
    script.chmod(0o755)
    place.written()
    try:
        return faults_of(place, script, limit)[1]
    finally:
        script.unlink()
        (place.here / "left").unlink(missing_ok=True)
        place.written()


def controls_missed(place):
    """What is not found in the script that is wrong, or is found where it is not."""
    for _, fault in control_faults(place, "", LIMIT):
        yield "found where nothing is wrong: %s" % fault
    for words, act, expected in CONTROLS:
        wrong = control_faults(place, 'if [ "$*" = "%s" ]; then %s; fi' % (words, act))
        if not any(expected in fault for _, fault in wrong):
            yield "not found: %s: %s" % (words, expected)


def main():
    Arguments(__doc__).parse_args()
    tried, wrong = 0, 0
    with tempfile.TemporaryDirectory() as folder:
        place = Place(Path(folder))
        missed = list(controls_missed(place))
        print("%-26s %3d ways to be wrong, %d not found out" % ("a control", len(CONTROLS), len(missed)), flush=True)
        for what in missed:
            print("    " + what)
        for program in programs(place.copy):
            count, faults = faults_of(place, program)
            tried += count
            wrong += len({run for run, _ in faults})
            print("%-26s %3d tried%s" % (program.name, count, ", wrong:" if faults else ""), flush=True)
            for run, fault in faults:
                print("    %s: %s" % (run, fault), flush=True)
    outcome = "%d runs, with those of --help, not as they should be" % wrong if wrong else "all refused with one line"
    print("refusals: %d tried, %s" % (tried, outcome))
    return 1 if wrong or missed else 0


if __name__ == "__main__":
    sys.exit(main())
