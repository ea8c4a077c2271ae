#!/bin/sh
# sh build/test.sh  runs the tests, and the programs that have an expected output, built with no proof, as many crates at
# a time as there are cores; and the checks that take minutes at most. Where there is no Rattle kit, the checks alone; and
# where no program of these sources is there then, the released one is held by the checks of its commit.
#
# With arguments it's one part of that: `tests CRATE`, `program CRATE`, `build unproved`, which says in $room/program where the
# program for the checks is, or `check NAME`. Each leaves in $room what it said, and in a file .counts how many passed and
# how many failed, or in a file .skipped why not.

# How many seconds of processor time a test may take, as it's built here with its accesses watched, however busy the machine
# is: one that takes more has failed.
seconds=300

# Those that take minutes, since they judge texts of the greatest sizes, or thousands: the gate alone runs them.
long='certificate_size_tests::one_byte_too_long certificate_size_tests::too_many_steps
malicious_question_tests::a_question_too_long random_question_tests::random_questions reading_tests::one_byte_too_long
refusals::answer_cut_at_each_byte refusals::each_growth_is_refused'

# `rt try` runs each test as a process, whose words end in the program's path, below TMPDIR, and the test's name.
tests() {
    to=$room/$1
    mkdir "$to.room"
    (cd "crates/$1" && TMPDIR=$to.room exec rt try --test --seconds $((6 * seconds))) > "$to" 2>&1 &
    while kill -0 $! 2> /dev/null; do
        for it in $(pgrep -f "$to.room/.*/program "); do
            case " $(echo $long) " in
            *" $(ps -o args= -p "$it" | sed 's/.* //') "*) kill -KILL "$it" ;;
            *) prlimit --pid "$it" --cpu="$seconds:" ;;
            esac
        done 2> /dev/null
        sleep 1
    done
    sed -n 's/^test \(.*\) \.\.\. FAILED$/\1/p' "$to" | grep -xF "$(printf '%s\n' $long)" > "$to.long"
    [ ! -s "$to.long" ] || echo "$(paste -s -d ' ' "$to.long"): minutes with no proof" > "$to.skipped"
    sed -n 's/^test result: .* \([0-9]*\) passed; \([0-9]*\) failed;.*/\1 \2/p' "$to" |
        awk -v long="$(wc -l < "$to.long")" '{ print $1, $2 - long }' > "$to.counts"
}

# A word that is not UTF-8 can't be given here: then no word is, and the last line and the status are the gate's to see.
program() {
    to=$room/$1
    cd "crates/$1" || exit 2
    lines='1,$' status=$(cat status 2> /dev/null || echo 0)
    set -- --
    if [ -f args ] && ! iconv -f UTF-8 -t UTF-8 args > /dev/null 2>&1; then
        lines='$!' status='[0-9]*'
    elif [ -f args ]; then
        while IFS= read -r word; do
            set -- "$@" "$word"
        done < args
    fi
    if [ -d data ]; then
        for file in $(find data -type f); do
            set -- --data "${file#data/}=$file" "$@"
        done
    fi
    rt try "$@" < stdin > "$to.out" 2> "$to"
    # shellcheck disable=SC2254
    case $? in
    $status) sed -n "${lines}p" stdout > "$to.wanted" && sed -n "${lines}p" "$to.out" | diff - "$to.wanted" >> "$to" 2>&1 ;;
    *) false ;;
    esac && echo 1 0 > "$to.counts" || echo 0 1 > "$to.counts"
}

# The checks that take minutes at most, the longest apart, on a program of these sources: one that was proved, or else one
# that is built with no proof.
long_checks='examples hints pictures plain'
checks='script page web library json limits refusals pages completions version definitions names sentences weight'

build() {
    if ! ira=$(sh build/program.sh); then
        if command -v rt > /dev/null; then
            ira=-
            sh build/try.sh > "$room/$1" 2>&1 && ira=bin/unproved/ira || echo 0 1 > "$room/$1.counts"
        elif [ "$ira" != release/ira ] || ! sh build/release.sh unpack "$room/pages"; then
            ira=-
        fi
    fi
    echo "$ira" > "$room/program.new" && mv "$room/program.new" "$room/program"
}

check() {
    to=$room/check.$1
    waited=0
    until [ -f "$room/program" ] || [ $waited = 1800 ]; do
        sleep 1
        waited=$((waited + 1))
    done
    checks=checks/all.sh
    case $1 in
    definitions | names | sentences | weight) ;;
    *) [ ! -d "$room/pages" ] || checks=$room/pages/checks/all.sh ;;
    esac
    case " $(sed -n "s/^all='\(.*\)'$/\1/p" "$checks") " in
    *" $1 "*) sh "$checks" "$(cat "$room/program")" "$1" ;;
    *) printf 'skipped: %s (the release has no such check)\nchecks: ran none; skipped %s; failed none\n' "$1" "$1" ;;
    esac > "$to" 2>&1
    sed -n 's/^skipped: [a-z_]* (\(.*\))$/\1/p' "$to" | head -n 1 > "$to.why"
    if grep -q "^checks: ran $1;.*; failed none$" "$to"; then
        echo 1 0 > "$to.counts"
    elif grep -q "^checks: ran none;.*; failed none$" "$to"; then
        cp "$to.why" "$to.skipped"
    else
        echo 0 1 > "$to.counts"
    fi
}

if [ $# -gt 0 ]; then
    "$@"
    case $1 in
    build) exit 0 ;;
    check) part=$room/check.$2 ;;
    *) part=$room/$2 ;;
    esac
    if [ ! -f "$part.skipped" ] && [ ! -s "$part.counts" ]; then
        echo 0 1 > "$part.counts"
    fi
    [ ! -f "$part.counts" ] || { read -r well badly < "$part.counts"; echo "$*: $well passed, $badly failed"; }
    [ ! -f "$part.skipped" ] || echo "$*: skipped $(cat "$part.skipped")"
    exit 0
fi

sh build/release.sh sums || exit 1
room=$(mktemp -d) || exit 2
export room
trap 'rm -rf "$room"' EXIT
trap 'exit 130' HUP INT TERM

ran='' checked=''
printf 'check %s\n' $long_checks > "$room/long"
{
    echo build unproved
    if command -v rt > /dev/null; then
        # the crates with the most tests first
        grep -rc --include='*.rt' '#\[test\]' crates/*/src | awk -F '[/:]' '{ tests[$2] += $NF }
            END { for (it in tests) if (tests[it]) print tests[it], "tests", it }' | sort -rn | cut -d ' ' -f 2- |
            sed "3r $room/long"
        for it in crates/*/stdout; do
            echo "program $(basename "$(dirname "$it")")"
        done
    else
        cat "$room/long"
    fi
    printf 'check %s\n' $checks
} > "$room/parts"
echo "$(wc -l < "$room/parts") parts, $(nproc) at a time"
xargs -P "$(nproc)" -L 1 sh build/test.sh < "$room/parts"

passed=0 failed=0
for counts in "$room"/*.counts; do
    part=${counts%.counts}
    read -r well badly < "$counts"
    passed=$((passed + well)) failed=$((failed + badly))
    [ "$badly" = 0 ] || { echo "== ${part##*/}"; grep -v ' \.\.\. ok$' "$part"; }
    case $part in
    */check.*) checked="$checked${checked:+, }${part##*/check.}" ;;
    *) ran="$ran${ran:+, }$well of ${part##*/}" ;;
    esac
done
# What was skipped of tests and programs, or of checks, within a check too.
skipped=$(for why in "$room"/*.skipped; do
    part=${why##*/}
    case $part in
    check.* | \*.skipped) ;;
    *) echo "${part%.skipped} ($(cat "$why"))" ;;
    esac
done | paste -s -d , - | sed 's/,/, /g')
unchecked=$(sed -n 's/^skipped: //p' "$room"/check.* | sort -u | paste -s -d , - | sed 's/,\([^ ]\)/, \1/g')
command -v rt > /dev/null || skipped='all (no Rattle kit)'
echo "$passed passed, $failed failed"
echo "tests with no proof: ran ${ran:-none}${skipped:+; skipped $skipped}"
echo "checks: ran ${checked:-none}${unchecked:+; skipped $unchecked}"
[ ! -d "$room/pages" ] || echo "release/ira is of other sources: its checks are those of $(grep '^commit: ' release/TREE)"
[ "$failed" = 0 ]
