#!/bin/sh
# What the repository weighs, tests left out: lines of src; lines of src, specs and proofs; words of pages, without CHANGELOG.
# In the table of CONTRIBUTING.md each `at most` is what is there and what is set aside by name. No commit raises it above
# that of the release, or of a commit before, as far as there is a history.
#
#     sh checks/weight.sh [--write]      --write puts what is there into the table, and lowers `at most` to it

cd "$(dirname "$0")/.." || exit 2
LC_ALL=C
export LC_ALL

lines() {
    find "$@" -type f 2> /dev/null | xargs cat | wc -l
}
code=$(ls -d crates/* | grep -v '^crates/test_')
src=$(lines $(printf '%s/src ' $code))
pages=$(cat README.md CONTRIBUTING.md docs/*.md examples/*.md crates/*/README.md library/README.md release/README.md | wc -w)
there="$src $(lines $(printf '%s/src ' $code) $(printf '%s/specs ' $code) $(printf '%s/proofs ' $code)) $pages"

# The three numbers of the table's rows with a name, added up.
rows() {
    sed -n "s/^| $1[^|]*|\([ 0-9|]*\)|$/\1/p" | tr '|' ' ' | awk '{ for (i = 1; i <= 3; i++) sum[i] += $i } END { print sum[1] + 0, sum[2] + 0, sum[3] + 0 }'
}
aside=$(rows 'Set aside' < CONTRIBUTING.md)
wanted=$(echo "$there $aside" | awk '{ print $1 + $4, $2 + $5, $3 + $6 }')

if [ "$1" = --write ]; then
    row() {
        sed -i "s/^| $1 |[ 0-9|]*$/| $1 | $2 | $3 | $4 |/" CONTRIBUTING.md
    }
    row There $there
    row 'At most' $(echo "$(rows 'At most' < CONTRIBUTING.md) $wanted" | awk '{ for (i = 1; i <= 3; i++) print $i < $(i + 3) ? $i : $(i + 3) }')
fi

most=$(rows 'At most' < CONTRIBUTING.md)
said=$(rows There < CONTRIBUTING.md)
# The least that was the most, of the release and of each commit whose page has the table.
least=$({
    sed -n 's/^weight: //p' release/TREE
    git log --first-parent --format=%h -- CONTRIBUTING.md 2> /dev/null | while read -r commit; do
        git show "$commit:CONTRIBUTING.md" | grep -q '^| At most |' || break
        git show "$commit:CONTRIBUTING.md" | rows 'At most'
    done
} | awk '{ for (i = 1; i <= 3; i++) if (NR == 1 || $i < least[i]) least[i] = $i } END { if (NR) print least[1], least[2], least[3]; else print "none" }')

echo "weight: $there; set aside $aside; at most $most (lines of src; of src, specs and proofs; words of pages)"
echo "$there;$said;$wanted;$most;$least" | awk -F ';' '
    function tell(what) { print "weight: " what; bad = 1 }
    {
        if ($1 != $2) tell("the table says that " $2 " are there: sh checks/weight.sh --write")
        split($3, wanted, " "); split($4, most, " "); split($5, least, " ")
        for (i = 1; i <= 3; i++) {
            if (wanted[i] > most[i]) tell(wanted[i] - most[i] " too many: what is added is taken away elsewhere, or was set aside for it")
            if (wanted[i] < most[i]) tell(most[i] - wanted[i] " fewer than at most: set them aside by name, or lower it: sh checks/weight.sh --write")
            if ($5 != "none" && most[i] > least[i]) tell("at most " most[i] ", and it was " least[i] " before")
        }
        exit bad
    }'
