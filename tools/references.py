#!/usr/bin/env python3
"""Looks for names of files that a release lacks, in all that it holds.

    references.py FOLDER         an unpacked release
    references.py --selftest     a made-up release, whole and with one wrong name after the other

A line `file:line: name` for each name that is not there, and a summary; exit status 1 if there is one. A name is

    tools/sizes.py    a path through a folder of FOLDERS, from the page's own or the release's; also behind the
                      release's name, PREFIX or $PWD; and what a compiler's -I or -L has
    badge.c           a word with an ending of ENDINGS: somewhere the release has a file that is called so
    scheme/Reading    a place of the definitions, which are the repository's: no release has them

{a,b} and * stand for all that fits. What a command of the same page writes (-o NAME) is there, and so is what its
reader brings: OWN. Pages, notes and pictures are read whole, of C the comments and strings, of Python the comments and
docstrings.
"""

import io
import re
import sys
import tempfile
import tokenize
from fnmatch import fnmatch
from itertools import product
from pathlib import Path, PurePosixPath

import paths  # noqa: F401  (makes the module below importable)
from arguments import Arguments

FOLDERS = ".ci crates docs examples include lib packaging reference target tools vectors".split()
ENDINGS = "antt c cmake edit h json md pc py rt sh svg txt".split()
OWN = {"LIBRARY.so", "FILE.json", "program.c"}

READ = ".c .cmake .h .json .md .pc .py .svg".split()
PART = r"(?:[\w.$~@+*-]|\{[\w.,*-]+\})+"
WORD = re.compile(r"/?%s(?:/%s)*/?" % (PART, PART))
ENDED = re.compile(r"[\w*{},-]+\.(?:%s)|lib\w+\.(?:a|so)" % "|".join(ENDINGS))
PLACE = re.compile(r"[a-z_]+/[A-Z]\w*")
WRITTEN = re.compile(r"-o (\S+)")
C_TEXT = re.compile(r"""/\*.*?\*/|//[^\n]*|"(?:\\.|[^"\\\n])*"|'(?:\\.|[^'\\\n])'|<smallwood[^\n]*""", re.S)


# ---- What is read -----------------------------------------------------------------------------------


def pieces(path):
    """(line, text) of what is read of a file."""
    text = path.read_text()
    if path.suffix in (".c", ".h"):
        for found in C_TEXT.finditer(text):
            yield 1 + text.count("\n", 0, found.start()), found[0]
    elif path.suffix == ".py":
        for token in tokenize.generate_tokens(io.StringIO(text).readline):
            documents = token.type == tokenize.STRING and not token.line[: token.start[1]].strip()
            if documents or token.type == tokenize.COMMENT:
                yield token.start[0], token.string
    else:
        yield 1, text


def words(path):
    """(line, word) of all that might be a name."""
    for first, text in pieces(path):
        for number, line in enumerate(text.split("\n"), first):
            for found in WORD.finditer(line):
                yield number, found[0].rstrip(".-")


# ---- Names ------------------------------------------------------------------------------------------


def name_of(word, release):
    """The name that a word is, without what stands before it; None where it is none."""
    if word[:1] == "/" or word in OWN or word in FOLDERS:
        return None
    option = re.fullmatch(r"-[IL](.+)", word)
    parts = (option[1] if option else word).split("/")
    while len(parts) > 1 and (parts[0][:1] == "$" or parts[0] in ("PREFIX", ".", release)):
        parts = parts[1:]
    name = "/".join(parts)
    first = next((part for part in parts if part != ".."), None)
    known = first in FOLDERS or ENDED.fullmatch(parts[-1]) or PLACE.fullmatch(name)
    return name if known or option and name[:1] != "$" else None


def spelled(name):
    """The names that {a,b} stands for."""
    parts = re.split(r"\{([^}]*)\}", name)
    choices = [part.split(",") if i % 2 else [part] for i, part in enumerate(parts)]
    return ["".join(chosen) for chosen in product(*choices)]


def normal(path):
    """A path without `..`; those that lead out of the release are dropped."""
    kept = []
    for part in path.parts:
        if part != "..":
            kept.append(part)
        elif kept:
            kept.pop()
    return "/".join(kept)


class Release:
    """The files and folders of an unpacked release."""

    def __init__(self, folder):
        self.folder = folder
        self.known = {path.relative_to(folder).as_posix(): path for path in sorted(folder.rglob("*"))}
        self.count = 0

    def has(self, name, page):
        places = [normal(PurePosixPath(page).parent / name), normal(PurePosixPath(name))]
        anywhere = "*/" + name if ENDED.fullmatch(name) else None
        return any(fnmatch(known, place) for known in self.known for place in (*places, anywhere) if place)

    def lacking(self):
        """(page, line, name) for each name that is not there."""
        for page, path in self.known.items():
            if path.is_dir() or path.suffix not in READ:
                continue
            written = {normal(PurePosixPath(made)) for _, text in pieces(path) for made in WRITTEN.findall(text)}
            for line, word in words(path):
                name = name_of(word, self.folder.name)
                if name is None or normal(PurePosixPath(name)) in written:
                    continue
                self.count += 1
                if not all(self.has(each, page) for each in spelled(name)):
                    yield page, line, name


def report(folder):
    release = Release(folder)
    found = list(release.lacking())
    for finding in found:
        print("%s:%d: %s" % finding)
    print("references: %d names of files, %d of them not in the release" % (release.count, len(found)))
    return 1 if found or not release.count else 0


# ---- The self-test ----------------------------------------------------------------------------------

NAMED = "made-1"  # the made-up release
SAMPLE = {  # file: text, and how many names it has
    "README.md": (
        "Line one.\n\n    cc %s/examples/first.c -I%s/include -L%s/lib -lmade -o first && ./first\n\n"
        "`include/made.h`, `lib/`, ![one](docs/made.svg), $PWD/lib/made.pc, https://example.org/docs/none.md.\n"
        % (NAMED, NAMED, NAMED), 7),
    "docs/GUIDE.md": (
        "See `first.c`, examples/{first,second}.c, `*.json`, ../README.md and PREFIX/include; x/y is a quotient.\n\n"
        "    gcc -shared lib/libmade.a -o libmade.so\n    run.py ./libmade.so\n\n`run.py LIBRARY.so`, program.c.\n", 8),
    "docs/made.svg": ("<text>docs/GUIDE.md</text>\n", 1),
    "examples/first.c": (
        "/* As second.c,\n * -Iinclude. */\n#include <stdio.h>\n#include <smallwood.h>\nint a = b.c; // second.c\n"
        "char c = '\"', *d = \"made.json\";\n", 5),
    "examples/second.c": ('#include "made.h"\n', 1),
    "include/made.h": ("int a;\n", 0),
    "include/smallwood.h": ("int a;\n", 0),
    "lib/libmade.a": ("examples/none.c\n", 0),  # not read
    "lib/made.pc": ("prefix=${pcfiledir}/..\nlibs=-L${prefix}/lib\n# more/more.pc\n", 2),
    "lib/more/more.pc": ("", 0),
    "vectors/made.json": ('{"fields": "vectors/run.py"}\n', 1),
    "vectors/run.py": ('"""Runs\nmade.json."""\na = b.c  # ../docs/\nd = "none.json"\n', 2),
}  # fmt: skip
BREAKS = (  # file, old text, new text, what is found
    ("README.md", "examples/first.c", "examples/third.c", "README.md:3: examples/third.c"),
    ("README.md", "-I%s/include" % NAMED, "-I%s/includes" % NAMED, "README.md:3: includes"),
    ("README.md", "include/made.h", "include/none.h", "README.md:5: include/none.h"),
    ("README.md", "Line one", ".ci/run", "README.md:1: .ci/run"),
    ("README.md", "Line one", "`crates/made/src/`", "README.md:1: crates/made/src/"),
    ("README.md", "Line one", "proved (made/Reading)", "README.md:1: made/Reading"),
    ("README.md", "Line one", "Reading.antt", "README.md:1: Reading.antt"),
    ("README.md", "$PWD/lib/made.pc", "$PWD/lib/none.pc", "README.md:5: lib/none.pc"),
    ("docs/GUIDE.md", "`first.c`", "`third.c`", "docs/GUIDE.md:1: third.c"),
    ("docs/GUIDE.md", "{first,second}", "{first,third}", "docs/GUIDE.md:1: examples/{first,third}.c"),
    ("docs/GUIDE.md", "*.json", "*.rt", "docs/GUIDE.md:1: *.rt"),
    ("docs/GUIDE.md", "../README.md", "../NEWS.md", "docs/GUIDE.md:1: ../NEWS.md"),
    ("docs/GUIDE.md", "PREFIX/include", "PREFIX/reference", "docs/GUIDE.md:1: reference"),
    ("docs/GUIDE.md", "-o libmade.so", "-o other.so", "docs/GUIDE.md:4: libmade.so"),
    ("docs/GUIDE.md", "lib/libmade.a", "libnone.a", "docs/GUIDE.md:3: libnone.a"),
    ("docs/made.svg", "GUIDE", "HANDBOOK", "docs/made.svg:1: docs/HANDBOOK.md"),
    ("examples/first.c", "-Iinclude", "-Itarget", "examples/first.c:2: target"),
    ("examples/first.c", "<smallwood.h>", "<smallwood_wipe.h>", "examples/first.c:4: smallwood_wipe.h"),
    ("examples/first.c", "// second.c", "// third.c", "examples/first.c:5: third.c"),
    ("examples/first.c", "made.json", "none.json", "examples/first.c:6: none.json"),
    ("examples/second.c", "made.h", "none.h", "examples/second.c:1: none.h"),
    ("lib/made.pc", "/lib", "/target", "lib/made.pc:2: target"),
    ("lib/made.pc", "more/more.pc", "none/more.pc", "lib/made.pc:3: none/more.pc"),
    ("vectors/made.json", "vectors/run.py", "tools/made.py", "vectors/made.json:1: tools/made.py"),
    ("vectors/run.py", "made.json", "none.json", "vectors/run.py:2: none.json"),
    ("vectors/run.py", "../docs/", "../tools/", "vectors/run.py:3: ../tools/"),
)


def found_in(texts):
    """(count of names, findings) of a release with these texts."""
    with tempfile.TemporaryDirectory() as outside:
        folder = Path(outside) / NAMED
        for name, text in texts.items():
            (folder / name).parent.mkdir(parents=True, exist_ok=True)
            (folder / name).write_text(text)
        release = Release(folder)
        found = ["%s:%d: %s" % finding for finding in release.lacking()]
        return release.count, found


def selftest():
    whole = {name: text for name, (text, _) in SAMPLE.items()}
    faults = []
    expected = sum(count for _, count in SAMPLE.values())
    count, found = found_in(whole)
    if (count, found) != (expected, []):
        faults.append("whole: %d names, expected %d; %s" % (count, expected, found))
    for name, old, new, finding in BREAKS:
        assert old in whole[name], old
        _, found = found_in({**whole, name: whole[name].replace(old, new, 1)})
        if found != ([finding]):
            faults.append("%s: expected %s, found %s" % (new, finding, found))
    for fault in faults:
        print("references self-test: " + fault)
    print("references self-test: %d names, %d breaks, %d faults" % (expected, len(BREAKS), len(faults)))
    return 1 if faults else 0


def main():
    parser = Arguments(__doc__)
    parser.add_argument("folder", metavar="FOLDER", nargs="?", type=Path)
    parser.add_argument("--selftest", action="store_true", help="test this program")
    given = parser.parse_args()
    if given.selftest == (given.folder is not None):
        parser.error("a folder, or --selftest")
    if given.selftest:
        return selftest()
    if not given.folder.is_dir():
        parser.error("there is no folder '%s'" % given.folder)
    return report(given.folder.resolve())


if __name__ == "__main__":
    sys.exit(main())
