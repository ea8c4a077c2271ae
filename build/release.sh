#!/bin/sh
# sh build/release.sh COMMAND  about release/, the program, the page and the library as they were proved of the commit in its
# TREE, and pages.tar.gz, all else of that commit: its manual, completions, pages, examples and checks:
#
#     sums             whether its files are those that were released: SHA256SUMS has each of them
#     age              a line that says how old it is
#     unpack FOLDER    unpacks pages.tar.gz to a folder; status 3 where the release has none
#     compare FOLDER   whether it is what was built in a folder, as bin, byte for byte. Status 3 where that can't be said:
#                      the C library of this machine is another one than was linked, so the program can't be compared
#     prove            compares it with what is proved and built here, where these are its sources; else says how old
#                      it is
#     make             writes it of what stands in bin, and says what differs from the one that was there
#     verify           proves and builds its commit anew, in a clone, and compares
set -e

field() {
    sed -n "s/^$1: //p" "$2"
}
commit=$(field commit release/TREE 2> /dev/null || true)
released=$(field files release/TREE 2> /dev/null || true)
# (releases up to 0.3.0 don't name their files)
released=${released:-ira ira.html LINKED README.md TREE}
most=4000000

# What a commit has beside crates and the release, and what checks read of crates. Zipped bytes may differ from machine to
# machine, these don't.
pages_of() {
    # shellcheck disable=SC2046
    git -c tar.umask=0022 archive --format=tar "$1" -- $(git ls-tree --name-only "$1" | grep -v '^crates$\|^release$') \
        crates/ira_view_html/src/script.rt crates/ira_main_cli/src/command_line.rt crates/ira_main/src/guide.rt ':!*.png'
}

case $1 in
sums)
    if ! (cd release && sha256sum --check --strict --quiet SHA256SUMS) >&2 ||
        [ "$(sed 's/^[^ ]*  //' release/SHA256SUMS | paste -s -d ' ' -)" != "$released" ]; then
        echo 'release/ is not what was released: SHA256SUMS names other bytes or files. `git checkout release` brings it back.' >&2
        exit 1
    fi
    ;;
age)
    count=$(git rev-list --count "$commit..HEAD" 2> /dev/null) || count='an unknown number of'
    echo "release/ is of other sources, of $count commits ago: make try builds these with no proof, make ira proves them"
    ;;
unpack)
    if [ ! -f release/pages.tar.gz ]; then
        echo "release/ has no manual, completions, pages, examples and checks of its commit, $commit" >&2
        exit 3
    fi
    mkdir -p "$2"
    gzip -dc release/pages.tar.gz | tar -x -f - -C "$2"
    ;;
compare)
    differs=''
    for it in ira.html libira.so; do
        case " $released " in
        *" $it "*) cmp -s "$2/$it" release/$it || differs="$differs $it" ;;
        esac
    done
    if [ -f release/pages.tar.gz ]; then
        gzip -dc release/pages.tar.gz | cmp -s - "$2/pages.tar" || differs="$differs pages.tar.gz"
    fi
    [ "$(field ira.o "$2/LINKED")" = "$(field ira.o release/LINKED)" ] || differs="$differs ira.o"
    if [ "$(field libc "$2/LINKED")" = "$(field libc release/LINKED)" ]; then
        cmp -s "$2/ira" release/ira || differs="$differs ira"
    elif [ -z "$differs" ]; then
        echo 'release/ira is not compared: release/LINKED names another C library than this machine has. Compare where that one' \
            'is, or make the release anew here.'
        exit 3
    fi
    [ -z "$differs" ] || { echo "release/ is not what its sources give: these differ:$differs"; exit 1; }
    echo 'release/ is what its sources give, byte for byte'
    ;;
prove)
    tree=$(sh build/tree.sh)
    # What it was made of, as build/tree.sh says it.
    made() { sed "/^commit: /d; /^weight: /d; /^files: /d" release/TREE; }
    if [ "$tree" = "$(made)" ]; then
        sh build/prove.sh web lib
        [ ! -f release/pages.tar.gz ] || pages_of "$commit" > bin/pages.tar
        sh build/release.sh compare bin
    elif [ "$(echo "$tree" | sed 1d)" = "$(made | sed 1d)" ]; then
        echo "release/ was proved by another kit, $(field kit release/TREE): not compared"
    else
        sh build/release.sh age
    fi
    ;;
make)
    git diff --quiet HEAD || { echo 'a release is made of what is committed: git status' >&2; exit 1; }
    sh build/prove.sh web lib
    if ldd bin/ira > /dev/null 2>&1; then
        echo "bin/ira isn't static: install libc.a (glibc's static library), then: make clean release" >&2
        exit 1
    fi
    case $(bin/ira version) in
    *-dev*) echo "a release has a version of its own, and this is $(bin/ira version)" >&2; exit 1 ;;
    esac
    mkdir -p release
    pages_of HEAD | gzip -n -9 > bin/pages.tar.gz
    made='ira ira.html libira.so pages.tar.gz'
    for it in $made; do
        was=$(cat release/$it 2> /dev/null | wc -c)
        if cmp -s bin/$it release/$it; then echo "$it: as before"; else echo "$it: $(wc -c < bin/$it) bytes, was $was"; fi
        cp bin/$it release
    done
    cp bin/LINKED release
    released="$made LINKED README.md TREE"
    weight=$(sh checks/weight.sh | sed -n 's/.*at most \([0-9 ]*[0-9]\) (.*/\1/p')
    { echo "commit: $(git rev-parse HEAD)"; cat bin/TREE; echo "weight: $weight"; echo "files: $released"; } > release/TREE
    sed -e "s/@VERSION@/$(bin/ira version)/" -e "s/@COMMIT@/$(git rev-parse HEAD)/" -e "s/@KIT@/$(field kit bin/TREE)/" \
        build/release-README.md > release/README.md
    # shellcheck disable=SC2086
    (cd release && sha256sum $released > SHA256SUMS)
    size=$(tar -c release | gzip -9 | wc -c)
    echo "release/: $size bytes, packed"
    [ "$size" -le $most ] || { echo "that is more than the $most by which a release may add to the repository" >&2; exit 1; }
    ;;
verify)
    clone=bin/verify
    trap 'rm -rf $clone' EXIT
    trap 'exit 130' HUP INT TERM
    rm -rf $clone
    git clone --quiet . $clone
    git -C $clone checkout --quiet "$commit"
    (cd $clone && sh build/prove.sh web lib)
    [ ! -f release/pages.tar.gz ] || pages_of "$commit" > $clone/bin/pages.tar
    sh build/release.sh compare $clone/bin
    ;;
esac
