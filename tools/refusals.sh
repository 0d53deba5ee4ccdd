#!/bin/sh
# Tests that every script here, and every Python program here and in reference/, refuses wrong options and words,
# missing values, files that are not there and missing tools: at once, with exit status 2 and one line that begins with
# its name, and with nothing built. A line for each of them and a summary; exit status 1 where one is not refused so.
#
#     tools/refusals.sh
#
# Needs python3. It builds nothing, and works on a copy of the repository.

set -eu
. "$(dirname "$0")/common.sh"

read_options "$@"
no_words
need_python
exec python3 "$tools/refusals.py"
