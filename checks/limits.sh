#!/bin/sh
# Faults that go to standard error, texts of many megabytes, and what is past the limits of a text.
#
#     sh checks/limits.sh bin/ira

ira=$(realpath "$1") || exit 2
[ -x "$ira" ] || { echo "limits: no program at $1"; exit 2; }
cd "$(dirname "$0")/../examples" || exit 2
passed=0
failed=0

fail() {
    echo "limits: $1"
    failed=$((failed + 1))
}

# Compares a status, what is on standard output, and the first line of what is on standard error.
judged() {
    found="$1: $(cat "$folder/out"): $(head -n 1 "$folder/err")"
    if [ "$found" = "$2" ]; then
        passed=$((passed + 1))
    else
        fail "$3: wanted $2, found $found"
    fi
}

# Runs a command line whose fault goes to standard error, with standard output empty.
refuses() {
    line=$1
    shift
    "$ira" "$@" < /dev/null > "$folder/out" 2> "$folder/err"
    judged $? "2: : $line" "ira $*"
}

# The log of a node of two that draw the same ID in so many rounds. Then node 0 draws more, and leads.
tie_log() {
    awk -v place="$1" -v rounds="$2" 'BEGIN {
        printf "irlog 1\nnodes 2\nplace %d\nstart initiator\n", place
        for (r = 1; r <= rounds; r++) {
            printf "draw 1\nsend %d 1 1 clean\nrecv %d 1 1 clean\n", r, r
            printf "send %d 1 2 dirty\nrecv %d 1 2 dirty\n", r, r
        }
        if (place == 0)
            printf "draw 2\nsend %d 2 1 clean\nrecv %d 1 1 clean\nrecv %d 2 2 clean\n", r, r, r
        else
            printf "draw 1\nsend %d 1 1 clean\nrecv %d 2 1 clean\nsend %d 2 2 clean\n", r, r, r
        printf "end %d\n", 5 * rounds + 4
    }'
}

# So many cases that ask for a leader at place 0 and for this at place 1.
question() {
    awk -v cases="$1" -v clause="$2" 'BEGIN {
        printf "irask 1\nnodes 2\n"
        for (k = 0; k < cases; k++) printf "case\n0: leader\n1: %s\n", clause
        printf "end\n"
    }'
}

# That so many cases are absent, each by so many steps.
absent() {
    awk -v cases="$1" -v steps="$2" 'BEGIN {
        for (k = 0; k < cases; k++) printf "case %d: absent, %d steps, node 1 spent\n", k, steps
    }'
}

# Faults go to standard error, and nothing else does.
folder=$(mktemp -d)
refuses "error: unrecognized subcommand 'judge'" judge
refuses "ira: a word is not UTF-8" logs "$(printf '\377')"
refuses "ira: ring size" pairs 1
refuses "ira: cannot read nowhere.log" logs two_node_election/0.log nowhere.log
refuses "ira: run refused 1" run --nodes 2 --seed 7 --initiators 0 --out "$folder"
echo > "$folder/none"
refuses "ira: cannot write $folder/none/0.log" run --nodes 2 --seed 7 --out "$folder/none"
"$ira" logs two_node_election/0.log two_node_election/1.log < /dev/null > "$folder/out" 2> "$folder/err"
judged $? "0: yes: " "logs of two_node_election"

# A certificate of 32,385 sections with 153 steps each has more bytes than a text may have.
tie_log 0 30 > "$folder/0.log"
tie_log 1 30 > "$folder/1.log"
question 32385 "(not passive)" > "$folder/long.ask"
"$ira" decide --question "$folder/long.ask" --out "$folder/made.cert" "$folder/0.log" "$folder/1.log" < /dev/null > "$folder/all" 2> "$folder/err"
status=$?
absent 32385 153 | cmp -s - "$folder/all" && [ ! -e "$folder/made.cert" ] && echo whole > "$folder/out"
judged $status "2: whole: ira: certificate past the limits" "decide past the limits"

# Each command reads its files to their end: logs of more than a megabyte, then texts of more than four.
tie_log 0 19999 > "$folder/0.log"
tie_log 1 19999 > "$folder/1.log"
"$ira" < "$folder/0.log" > "$folder/out" 2> "$folder/err"
judged $? "0: yes: " "a long log alone"
"$ira" logs "$folder/0.log" "$folder/1.log" < /dev/null > "$folder/out" 2> "$folder/err"
judged $? "0: yes: " "long logs"
# Of clauses that hold nearly everywhere, each in two cases, no more positions are kept than the logs have: 1,000 tables of all
# positions wouldn't fit here.
awk 'BEGIN {
    printf "irask 1\nnodes 2\n"
    for (k = 0; k < 2000; k++) printf "case\n0: (not round = %d)\n1: leader\n", 1 + k % 1000
    printf "end\n"
}' > "$folder/many.ask"
(ulimit -v 150000 && "$ira" decide --question "$folder/many.ask" "$folder/0.log" "$folder/1.log" < /dev/null > "$folder/all" 2> "$folder/err")
status=$?
absent 2000 0 | cmp -s - "$folder/all" && echo whole > "$folder/out"
judged $status "0: whole: " "decide of many clauses in little memory"
refuses "ira: 199998 events are too many for one picture, which holds 20000: give --from and --to" \
    draw --out "$folder/drawn.svg" "$folder/0.log" "$folder/1.log"
[ ! -e "$folder/drawn.svg" ] || fail "draw of long logs: a picture"
"$ira" draw --out "$folder/drawn.svg" --from 900 --to 960 "$folder/0.log" "$folder/1.log" < /dev/null > "$folder/out" 2> "$folder/err"
judged $? "0: yes: " "draw of a part of long logs"
mkdir "$folder/new"
"$ira" upgrade --out "$folder/new" "$folder/0.log" "$folder/1.log" < /dev/null > "$folder/out" 2> "$folder/err"
judged $? "0: upgraded 2 logs: " "upgrade of long logs"
for log in 0.log 1.log; do
    sed '1s/.*/irlog 2/' "$folder/$log" | cmp -s - "$folder/new/$log" || fail "upgrade of long logs: another $log"
done
clause=leader
for level in 1 2 3 4 5 6 7 8 9 10; do
    clause="(leader and $clause)"
done
question 32385 "$clause" > "$folder/long.ask"
set -- two_node_election/0.log two_node_election/1.log
"$ira" decide --question "$folder/long.ask" --out "$folder/made.cert" "$@" < /dev/null > "$folder/all" 2> "$folder/err"
status=$?
absent 32385 0 | cmp -s - "$folder/all" && echo whole > "$folder/out"
judged $status "0: whole: " "decide of a long question"
"$ira" check --question "$folder/long.ask" --cert "$folder/made.cert" "$@" < /dev/null > "$folder/out" 2> "$folder/err"
judged $? "0: yes: " "check of a long question"
{
    printf 'ircert 1\nnodes 2\nsection\ndrop 1 1 by 0 4\n'
    awk 'BEGIN { for (k = 0; k < 300000; k++) printf "drop 1 2 by 0 4\n" }'
    printf 'spent 1\nend\n'
} > "$folder/long.cert"
"$ira" check --question two_node_election/active_beside_leader.ask --cert "$folder/long.cert" "$@" < /dev/null > "$folder/out" 2> "$folder/err"
judged $? "1: no: case 0: step 2: node spent: " "check of a long certificate"
{
    printf 'irlog 1\nnodes 2\nplace 0\nstart initiator\ndraw 1'
    head -c 5000000 /dev/zero | tr '\0' x
    printf '\nend 1\n'
} > "$folder/0.log"
"$ira" < "$folder/0.log" > "$folder/out" 2> "$folder/err"
judged $? "1: no: log 0: line 5: " "a long line on standard input"
"$ira" logs "$folder/0.log" "$folder/1.log" < /dev/null > "$folder/out" 2> "$folder/err"
judged $? "1: no: log 0: line 5: " "a long line in a file"
rm -r "$folder"

echo "limits: $passed as expected, $failed not"
[ "$passed" -gt 0 ] && [ "$failed" -eq 0 ]
