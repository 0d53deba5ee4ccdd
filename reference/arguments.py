"""Arguments of the programs here and in ../tools: what is wrong is refused with one line and exit status 2."""

import argparse
import os
from pathlib import Path


class Arguments(argparse.ArgumentParser):
    """Takes no option by a part of its name; `about` is what --help prints."""

    def __init__(self, about):
        layout = argparse.RawDescriptionHelpFormatter
        super().__init__(description=about, formatter_class=layout, allow_abbrev=False)

    def error(self, message):
        self.exit(2, "%s: %s (--help says what there is)\n" % (self.prog, " ".join(message.split())))


def present(word):
    """A file that is there."""
    if not os.path.isfile(word):
        raise argparse.ArgumentTypeError("there is no file '%s'" % word)
    return Path(word).resolve()


def runnable(word):
    """A file that can be run."""
    path = present(word)
    if not os.access(path, os.X_OK):
        raise argparse.ArgumentTypeError("'%s' is no program" % word)
    return path


def writable(word):
    """A file to be written: the folder for it is there."""
    path = Path(word).resolve()
    if path.is_dir() or not path.parent.is_dir():
        raise argparse.ArgumentTypeError("no file can be written as '%s'" % word)
    return path


def whole(word):
    """A whole number from 1 on."""
    if not (word.isascii() and word.isdigit() and int(word) > 0):
        raise argparse.ArgumentTypeError("'%s' is no whole number from 1 on" % word)
    return int(word)


def only_check(about):
    """For a program with no option but --check: whether it is given."""
    parser = Arguments(about)
    parser.add_argument("--check", action="store_true", help="compare with what is stored, and write nothing")
    return parser.parse_args().check
