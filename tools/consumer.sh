#!/bin/sh
# Installs the library to a prefix outside the repository and builds programs there that have nothing but this prefix:
# by pkg-config (by flags written by hand where it is missing), by CMake where it is installed, and once more when the
# prefix has been moved.
#
#     tools/consumer.sh
#
#     --archive FILE     installs this archive and does not build the library
#     --stand-in         installs the plain C implementation, to test these tools
#
# Needs gcc and g++, and rt unless an archive is given.

set -eu
. "$(dirname "$0")/common.sh"

takes='--archive --stand-in'
read_options "$@"
no_words
need_compiler
need_archive
need g++ "to link from C++"
find_archive smallwood_c
outside=$(mktemp -d)
trap 'rm -rf "$outside"' EXIT
warnings='-Wall -Wextra -Wpedantic -Werror'
tried=0

# What is installed, and nothing else.
install_to() {
    "$tools/install.sh" "$1" --archive "$archive" > "$outside/installed"
    find "$1" -type f | LC_ALL=C sort > "$outside/there"
    LC_ALL=C sort "$outside/installed" | cmp -s - "$outside/there" || fail "other files are installed than install.sh names"
    ! grep -q -F "$outside" "$1/lib/pkgconfig/smallwood.pc" "$1"/lib/cmake/smallwood/* || fail "an installed file holds the prefix"
}

# flags PREFIX: sets flags, for a compiler, outside the repository
flags() {
    if command -v pkg-config > /dev/null 2>&1; then
        flags=$(PKG_CONFIG_PATH=$1/lib/pkgconfig pkg-config --cflags --libs "smallwood = $(library_version)")
    else
        flags="-I$1/include -L$1/lib -lsmallwood"
    fi
}

# says PROGRAM [WORDS...]: it ends with 0, and with the value that the polynomial's digits give.
says() {
    "$@" > "$outside/said" || fail "$1 failed"
    grep -q "^smallwood $(library_version): .* the value at 10 is 987654321\$" "$outside/said" ||
        fail "$1 says: $(cat "$outside/said")"
    tried=$((tried + 1))
}

# build COMPILER [WORDS...]: first.c with these words, and runs it
build_and_run() {
    # shellcheck disable=SC2086
    (cd "$outside" && env -u CPATH -u C_INCLUDE_PATH -u LIBRARY_PATH "$@" $warnings first.c $flags -o first)
    says "$outside/first"
}

# Every header that the repository has, in one program in C++ that has no cast of C in it, and runs what they add.
with_headers() {
    for header in "$root"/include/*.h; do echo "#include <${header##*/}>"; done > "$outside/headers.cc"
    cat >> "$outside/headers.cc" << 'PROGRAM'
static int counted(void *context, void *to, size_t count)
{
    while (count-- > 0)
        static_cast<unsigned char *>(to)[count] = ++*static_cast<unsigned char *>(context);
    return 0;
}

int main()
{
    unsigned char state = 0, header[SMALLWOOD_HEADER_LENGTH];
    uint32_t indices[3];

    smallwood_put_header(header, 4, 3, 3, 1, 3, 2, 3, 1);
    if (smallwood_draw_indices(indices, 4, 3, counted, &state) != 0 || indices[0] >= indices[1] || indices[1] >= indices[2])
        return 1;
    smallwood_wipe_stack();
    return !smallwood_header_fits(header, 4, 3, 3, 1, 3, 2, 3);
}
PROGRAM
    (
        cd "$outside"
        # shellcheck disable=SC2086
        env -u CPATH -u CPLUS_INCLUDE_PATH g++ -std=c++11 -O2 $warnings -Wold-style-cast headers.cc $flags -o headers
    )
    "$outside/headers" || fail "the installed headers do not do what they say"
}

# As C, as C++, at fixed and at any address, without shared libraries, optimised over all files, and inside a shared library.
by_compiler() {
    flags "$1"
    build_and_run "$CC" -std=c99
    build_and_run "$CC" -std=c11 -O2 -no-pie
    build_and_run "$CC" -std=c17 -O3 -flto -fPIE -pie
    build_and_run "$CC" -std=c11 -O2 -static
    build_and_run g++ -x c++ -std=c++17 -O2
    (
        cd "$outside"
        # shellcheck disable=SC2086
        "$CC" -shared -fPIC -Dmain=first_main -Wl,-z,text -Wl,-z,defs first.c $flags -o libfirst.so
        printf 'int first_main(void);\nint main(void) { return first_main(); }\n' > main.c
        "$CC" main.c -L. -lfirst -Wl,-rpath,"$outside" -o shared
    )
    says "$outside/shared"
    with_headers
}

by_cmake() {
    command -v cmake > /dev/null 2>&1 || { echo "consumer: cmake is not installed: left out"; return 0; }
    cat > "$outside/CMakeLists.txt" << 'LISTS'
cmake_minimum_required(VERSION 3.10)
project(consumer C)
find_package(smallwood ${WANTED} REQUIRED)
add_executable(by_cmake first.c)
target_link_libraries(by_cmake PRIVATE smallwood::smallwood)
LISTS
    configure "$1" "$(library_version)" > "$outside/cmake.log" 2>&1 || { cat "$outside/cmake.log" >&2; fail "cmake failed"; }
    cmake --build "$outside/build" >> "$outside/cmake.log" 2>&1 || { cat "$outside/cmake.log" >&2; fail "cmake failed"; }
    says "$outside/build/by_cmake"
    ! configure "$1" "$((${version%%.*} + 1)).0" > "$outside/cmake.log" 2>&1 || fail "cmake takes the library for the next major version"
}

# configure PREFIX VERSION
configure() {
    rm -rf "$outside/build"
    cmake -S "$outside" -B "$outside/build" -DCMAKE_PREFIX_PATH="$1" -DWANTED="$2"
}

version=$(library_version)
cp "$root/examples/first.c" "$outside/"
install_to "$outside/here"
by_compiler "$outside/here"
by_cmake "$outside/here"
mv "$outside/here" "$outside/elsewhere"
by_compiler "$outside/elsewhere"
by_cmake "$outside/elsewhere"
if command -v pkg-config > /dev/null 2>&1; then
    ! PKG_CONFIG_PATH=$outside/elsewhere/lib/pkgconfig pkg-config --atleast-version="$((${version%%.*} + 1))" smallwood ||
        fail "pkg-config takes the library for the next major version"
else
    echo "consumer: pkg-config is not installed: flags by hand"
fi
echo "consumer: $tried programs built outside the repository against the installed prefix, all with the right value"
