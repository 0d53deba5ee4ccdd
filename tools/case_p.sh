#!/bin/sh
# Proves and builds the checking program, and runs it on case P of document 01. What it prints is all that stands on
# standard output.
#
#     tools/case_p.sh
#
# Needs rt.

set -eu
. "$(dirname "$0")/common.sh"

read_options "$@"
no_words
need rt "to prove and build the checking program"
find_crate_program verdict
exec "$program" < "$root/crates/verdict/stdin"
