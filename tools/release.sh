#!/bin/sh
# Packs a release: headers and archive as they are installed, the handbook, examples, vectors, sizes.py with what it
# needs, what all was built from, and the sums of that. The same commit and the same kit give the same bytes.
#
#     tools/release.sh                  packs it into target/release/, unpacks it elsewhere and tries it: the commands
#                                       on its pages as they stand there, its sums, the names of files in it
#     tools/release.sh --twice          packs it in two fresh clones, all proved from nothing in each, and compares the
#                                       sums: as long as two runs of rt ci --anew
#     tools/release.sh --rebuilt        builds the archive once more, in a fresh clone that takes over the crates proved
#                                       here, and compares the sums
#     tools/release.sh --references     lays the files out as they stand, without the archive, and looks for names of
#                                       files that a release lacks: needs python3 alone, and no clean work tree
#
#     --archive FILE     packs this archive and does not build the library; which kit made it is not said then
#
# Needs git, rt, gcc, python3, GNU tar and gzip. It packs a commit: the work tree must be clean.

set -eu
. "$(dirname "$0")/common.sh"

takes='--twice --rebuilt --references --archive'
read_options "$@"
case $words in
    '' | ' --twice' | ' --rebuilt' | ' --references') ;;
    *) fail "it takes --twice, --rebuilt, --references or no word" ;;
esac
[ -z "$given_archive" ] || [ -z "$words" ] || fail "--archive goes with no other word"
need_python
if [ "$words" != ' --references' ]; then
    need git "to name the commit"
    need_archive
    need_compiler
    need tar "to pack"
    need gzip "to pack"
    tar --version 2> /dev/null | grep -q GNU || fail "tar must be GNU tar"
    changes=$(cd "$root" && git status --porcelain) || fail "this is no clone: there is no commit to name"
    [ -z "$changes" ] || fail "the work tree is not clean: commit first"
fi

version=$(library_version)
name=smallwood-$version
packed=$root/target/release/$name-x86_64-linux.tar.gz
planner='tools/sizes.py tools/sizing.py tools/accepted_sets.py tools/sizes_tables.py tools/tables.py tools/paths.py
    reference/smallwood.py reference/arguments.py'
outside=$(mktemp -d)
trap 'rm -rf "$outside"' EXIT

# sum_of FILE
sum_of() {
    sha256sum < "$1" | cut -d ' ' -f 1
}

# lay_out DIRECTORY: at the root; all but what names build and sums
lay_out() {
    "$tools/install.sh" "$1" --archive "$archive" > "$outside/installed"
    mkdir "$1/docs" "$1/examples" "$1/reference" "$1/tools" "$1/vectors"
    for file in docs/HANDBOOK.md docs/sizes.svg examples/*.* vectors/*.* $planner; do
        cp "$file" "$1/$file"
    done
    sed -e "s/@VERSION@/$version/" -e "s/@NAME@/$name/g" packaging/README.md > "$1/README.md"
}

# fill DIRECTORY
fill() {
    lay_out "$1"
    {
        echo "smallwood $version"
        echo "commit $(git rev-parse HEAD)"
        if [ -n "$given_archive" ]; then echo "kit not known: the archive was given"; else echo "kit $(rt version)"; fi
    } > "$1/BUILD"
    (cd "$1" && find . -type f | sed 's/^\.\///' | LC_ALL=C sort | xargs sha256sum) > "$outside/sums"
    mv "$outside/sums" "$1/SHA256SUMS"
}

pack() {
    find_archive smallwood_c
    (cd "$root" && fill "$outside/$name")
    mkdir -p "$root/target/release"
    tar -C "$outside" --format=ustar --sort=name --mtime="@$(git -C "$root" log -1 --format=%ct)" --owner=0 --group=0 \
        --numeric-owner --mode=u=rwX,go=rX -cf - "$name" | gzip -9 -n > "$packed"
    rm -rf "${outside:?}/$name"
}

# commands PAGE COUNT: those that stand on a page; it has to have so many
commands() {
    sed -n 's/^    //p' "$1" > "$outside/commands"
    [ "$(wc -l < "$outside/commands")" = "$2" ] || fail "$1 of the release has not its $2 commands"
}

# What a stranger does who has the packed file alone: the commands of its pages as they stand there, and the sums.
try_packed() {
    mkdir "$outside/stranger"
    cp "$packed" "$outside/stranger/"
    (
        cd "$outside/stranger"
        tar -xzOf "$(basename "$packed")" "$name/README.md" > "$outside/page"
        commands "$outside/page" 4
        if command -v pkg-config > /dev/null 2>&1; then
            sh -eu "$outside/commands"
        else
            tar -xzf "$(basename "$packed")"
            "$CC" -std=c11 "$name/examples/first.c" -I"$name/include" -L"$name/lib" -lsmallwood -o first
            ./first
            tail -n 1 "$outside/commands" | sh -eu
        fi
        cd "$name"
        sha256sum --quiet -c SHA256SUMS || fail "a sum in $packed is wrong"
        cmp lib/libsmallwood.a "$archive" || fail "another archive is packed"
        python3 "$tools/references.py" .
        commands vectors/README.md 2
        sh -eu "$outside/commands"
    )
}

case $words in
    '')
        pack
        try_packed
        echo "release: $(sum_of "$packed")  target/release/$(basename "$packed")"
        ;;
    ' --references')
        archive=$outside/empty.a
        printf '!<arch>\n' > "$archive"
        (cd "$root" && lay_out "$outside/$name")
        python3 "$tools/references.py" "$outside/$name"
        commands "$outside/$name/README.md" 4
        (cd "$outside" && tail -n 1 commands | sh -eu > planned) || fail "sizes.py lacks something in a release"
        ;;
    ' --rebuilt')
        find_archive smallwood_c
        git clone -q "$root" "$outside/clone"
        mkdir -p "$outside/clone/target/tools"
        [ ! -f "$build/passed" ] || cp "$build/passed" "$outside/clone/target/tools/"
        for library in "$root"/crates/*/out/rlib; do
            there=$outside/clone/${library#"$root"/}
            mkdir -p "${there%/rlib}"
            cp -a "$library" "$there"
        done
        "$outside/clone/tools/install.sh" "$outside/prefix" > "$outside/installed"
        one=$(sum_of "$archive") two=$(sum_of "$outside/prefix/lib/libsmallwood.a")
        [ "$one" = "$two" ] || fail "the archive built in another clone differs: $one and $two"
        echo "release: the archive built in another clone is the same, $one"
        ;;
    ' --twice')
        for clone in one a/longer/path/to/two; do
            mkdir -p "$outside/$clone"
            git clone -q "$root" "$outside/$clone"
            (
                cd "$outside/$clone"
                sum=$(tools/take_over.sh)
                rt ci --anew > "$build/rt.log" || fail "rt ci --anew failed in a fresh clone: see $build/rt.log"
                tools/take_over.sh "$sum"
                tools/release.sh
            )
            sum_of "$outside/$clone/target/release/$(basename "$packed")" >> "$outside/both"
        done
        [ "$(sort -u "$outside/both" | wc -l)" = 1 ] || fail "two clones give two releases"
        echo "release: two clones, each proved from nothing, give the same release, $(head -n 1 "$outside/both")"
        ;;
esac
