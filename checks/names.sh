#!/bin/sh
# What pages name is there: the file and the heading that a link leads to, and in back quotes files and the items of code, as
# `NodeLog`, `read_log` or `RingAudit::take`. And each crate has a user, but for programs, the module and tests, and names
# each crate that crates.txt puts it on; ARCHITECTURE's drawing has each, but those of tests, on a line above what it rests on.
# No type, trait or function that is public in a crate of views, runs or the program has the name of another one there. The
# numbers of requests to ira_web have one order of names, in its code, in the page, in the library and in the check of both.
#
#     sh checks/names.sh

cd "$(dirname "$0")/.." || exit 2
made=$(mktemp -d) || exit 2
trap 'rm -rf "$made"' EXIT
LC_ALL=C
export LC_ALL
pages="README.md CONTRIBUTING.md CHANGELOG.md docs/*.md examples/README.md crates/*/README.md"
failed=0

fail() {
    echo "names: $1"
    failed=$((failed + 1))
}

# The headings of a page, as links name them.
anchors_of() {
    sed -n 's/^##* //p' "$1" | tr '[:upper:]' '[:lower:]' | sed 's/[^a-z0-9 _-]//g; s/ /-/g'
}

for page in $pages; do
    grep -o '](\([^) ]*\))' "$page" | sed 's/^](//; s/)$//' | grep -v '^https\{0,1\}:' | sort -u |
        while IFS='#' read -r file anchor; do
            to=${page%"${page##*/}"}$file
            [ -n "$file" ] || to=$page
            [ -e "$to" ] || { echo "$page: no $file"; continue; }
            [ -z "$anchor" ] || anchors_of "$to" | grep -qx -e "$anchor" || echo "$page: no heading $anchor in $to"
        done
done > "$made/links"

# All words of the code, and those that pages have in back quotes: with an underline, a capital inside, or after `::`.
find crates.txt crates/*/src crates/*/specs crates/*/proofs checks build -type f -exec cat {} + |
    grep -oE '[A-Za-z_][A-Za-z0-9_]*' | sort -u > "$made/words"
for page in $pages; do
    grep -oE '`[A-Za-z_][A-Za-z0-9_]*(::[A-Za-z_][A-Za-z0-9_]*)*`' "$page" | tr -d '`' |
        grep -E '_|[a-z][A-Z]|::' | sed 's/::/\n/g' | sort -u | comm -23 - "$made/words" | sed "s|^|$page: nothing is called |"
done > "$made/items"

# Files in back quotes: a crate's by its name, `ira_event/src/log_reader.rt`, or in some crate, `src/reason.rt`, `specs/Report`,
# `reason.rt`; X is any name.
for page in $pages; do
    grep -oE '`([a-z_]+/)?(src|specs|proofs)/[A-Za-z0-9_/]+(\.rt|\.antt)?`|`[a-z0-9_]+\.rt`' "$page" | tr -d '`' | grep -v '/X' |
        sort -u | while read -r it; do
            set -- crates/$it crates/$it.antt crates/$it/ crates/*/$it crates/*/$it.antt crates/*/src/$it
            for file in "$@"; do
                [ -e "$file" ] && continue 2
            done
            echo "$page: no file $it"
        done
done > "$made/files"

sed -n 's/^\([a-z0-9_]*\)\( staticlib\)\{0,1\}:\(.*\)/\1 \3/p' crates.txt | awk '
    { crate[NR] = $1; for (i = 2; i <= NF; i++) used[$i] = 1 }
    END { for (n = 1; n <= NR; n++) if (!(crate[n] in used) && crate[n] !~ /^(ira|ira_web|test_.*)$/) print crate[n] }' |
    sed 's/$/: no crate rests on it/' > "$made/crates"

sed -n 's/^\([a-z0-9_]*\)\( staticlib\)\{0,1\}:\(.*\)/\1 \3/p' crates.txt | while read -r crate below; do
    for other in $below; do
        grep -rqw --include='*.rt' --include='*.antt' "$other" "crates/$crate/src" "crates/$crate/specs" \
            "crates/$crate/proofs" 2> /dev/null || echo "crates.txt: no file of $crate names $other"
    done
done > "$made/below"

{ sed -n 's/^    \( *ira\| *[a-z ,]*  ira\)/\1/p' docs/ARCHITECTURE.md; echo =; cat crates.txt; } | awk '
    /^=$/ { is_list = 1 }
    !is_list { for (i = 1; i <= NF; i++) if ($i ~ /^(ira|ira_.*|test_commands)$/) row[$i] = NR; next }
    /^(ira|test_commands)/ {
        name = $1; sub(/:$/, "", name)
        if (!(name in row)) print name ": not in the drawing of ARCHITECTURE.md"
        for (i = 2; i <= NF; i++) if ($i in row && row[$i] <= row[name]) print name ": not drawn above " $i
    }' > "$made/drawing"

# The numbers of requests to the module stand by their names, in this order, wherever they are sent from.
requests_of() {
    sed 's|/\*.*\*/||; s/IRA_//' "$1" | tr -cs 'A-Za-z_' '\n' |
        awk '/^LOG$/ { on = 1 } on && /^[A-Z_]+$/ { sub(/.*JSON.*/, "JSON"); print; if (/^ASK$/) exit }'
}
sed -n 's/^const \([A-Z_]*\): u64 = \([0-9]*\);$/\2 \1/p' crates/ira_web/src/request.rt | awk '$1 == n { print $2; n++ }' \
    > "$made/requests"
for file in web/page.js library/ira.h library/ira.mjs library/ira.py checks/web.py; do
    requests_of "$file" | cmp -s - "$made/requests" ||
        echo "$file: requests are named otherwise than in crates/ira_web/src/request.rt"
done > "$made/numbers"

grep -rhoE --include='*.rt' '^pub (const )?(struct|enum|trait|type|fn) [A-Za-z0-9_]+' crates/ira_view*/src crates/ira_ring*/src \
    crates/ira_main*/src crates/ira_mend/src crates/ira_commands/src crates/ira_web/src | awk '{ print $NF }' | sort | uniq -d |
    sed 's/$/: two public items have this name/' > "$made/twice"

for it in links items files crates below drawing numbers twice; do
    while read -r line; do
        fail "$line"
    done < "$made/$it"
done
[ "$failed" -eq 0 ] && echo 'names: what pages name is there'
