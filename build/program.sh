#!/bin/sh
# sh build/program.sh  prints which program to try here: bin/ira where it was built of these sources, else release/ira.
# Ends with status 3 where that is of other sources, and with status 1 where it isn't what was released or doesn't run
# here; each time a line on standard error says so.
crates=$(sh build/tree.sh | grep '^crates: ') || exit 1
if [ -x bin/ira ]; then
    if grep -qxF "$crates" bin/TREE 2> /dev/null; then
        echo bin/ira
        exit 0
    fi
    echo 'bin/ira is of other sources' >&2
fi
if [ "$(uname -sm)" != 'Linux x86_64' ]; then
    echo "release/ira runs on Linux on x86-64, and this is $(uname -sm). release/ira.html runs in a browser, and" \
        'library/ira.mjs in Node.' >&2
    exit 1
fi
sh build/release.sh sums || exit 1
echo release/ira
grep -qxF "$crates" release/TREE && exit 0
sh build/release.sh age >&2
exit 3
