#!/bin/sh
# Tests the test vectors for other implementations (vectors/), and the compiled library with them.
#
#     tools/vectors.sh
#
#     --archive FILE     takes this archive and does not build the library
#     --stand-in         takes the plain C implementation in the library's place, which tests vectors and tools alone
#
# The stored vectors have to be what the second implementation gives, and the library has to pass them as vectors/run.py
# runs them: as a shared library, which any other implementation can be. Then copies of the files are damaged, and stubs
# have faults: the runner has to report each.
#
# Needs gcc and python3, and rt unless an archive is given.

set -eu
. "$(dirname "$0")/common.sh"

takes='--archive --stand-in'
read_options "$@"
no_words
need_compiler
need_python
need_archive
if [ "$stand_in" = yes ]; then
    CFLAGS="$CFLAGS -fPIC"
fi
find_archive smallwood_c

folder=$build/vectors
library=$folder/libsmallwood.so
mkdir -p "$folder"
"$CC" -shared -o "$library" -Wl,--whole-archive "$archive" -Wl,--no-whole-archive

python3 "$tools/stored_vectors.py" --check
python3 "$root/vectors/run.py" "$library"
python3 "$tools/vectors_faults.py" "$library" "$folder/faults" --cc "$CC"
