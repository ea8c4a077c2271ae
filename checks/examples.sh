#!/bin/sh
# Judges each example, and compares the line and the status with the tables in examples/README.md.
#
#     sh checks/examples.sh bin/ira
#
# A row that names a folder is judged by `ira logs` on its logs, one that names a file by `ira` alone, one that names
# a question and its certificate by `ira check` on these and the logs of their folder, and one that names a question alone
# by `ira decide` on it and these logs. The commands of from_run_to_check.txt, explain.txt,
# explain_ring.txt, explain_question.txt, explain_json.txt, show.txt, show_json.txt, five_nodes.txt, commands.txt and
# crashes_and_folders.txt run in a folder of their own.

ira=$(realpath "$1") || exit 2
[ -x "$ira" ] || { echo "examples: no program at $1"; exit 2; }
cd "$(dirname "$0")/../examples" || exit 2

# The logs of a folder, in the order of places.
logs_of() {
    place=0
    while [ -f "$1/$place.log" ]; do
        echo "$1/$place.log"
        place=$((place + 1))
    done
}

judge() {
    if [ -d "$1" ]; then
        "$ira" logs $(logs_of "$1") < /dev/null
    elif [ -f "$1" ]; then
        "$ira" < "$1"
    elif [ ! -f "$1.cert" ]; then
        "$ira" decide --question "$1.ask" $(logs_of "${1%/*}") < /dev/null
    else
        "$ira" check --question "$1.ask" --cert "$1.cert" $(logs_of "${1%/*}") < /dev/null
    fi
}

# Each row of a table as: name, tab, line, tab, status.
tab=$(printf '\t')
rows=$(sed -n "s/^| \`\([^\`]*\)\` | \`\([^\`]*\)\` | \([0-3]\) |.*/\1$tab\2$tab\3/p" README.md)
passed=0
failed=0

fail() {
    echo "examples: $1"
    failed=$((failed + 1))
}

# Compares the line and the status that were found for a row with those that it has.
compare() {
    if [ "$1" = "$line" ] && [ "$2" = "$status" ]; then
        passed=$((passed + 1))
    else
        fail "$3: wanted $line ($status), found $1 ($2)"
    fi
}

while IFS=$tab read -r name line status; do
    found=$(judge "$name")
    compare "$found" $? "$name"
done <<END
$rows
END

# Each log has a row, or its folder has.
for log in */*.log; do
    echo "$rows" | grep -q -e "^$log$tab" -e "^${log%/*}$tab" || fail "$log: no row in README.md"
done

# The recorder writes the shipped logs again, where there is a Python to run it.
if command -v python3 > /dev/null; then
    folder=$(mktemp -d)
    python3 -B recorders/ring.py --nodes 4 --initiators 3 --seed 12 --out "$folder"
    diff -r "$folder" recorded_ring || fail "recorders/ring.py: other logs than recorded_ring"
    # Its logs of several terms are those of a run too.
    python3 -B recorders/ring.py --nodes 4 --initiators 3 --seed 12 --terms 3 --out "$folder"
    found=$("$ira" logs $(logs_of "$folder") < /dev/null)
    [ "$found" = yes ] || fail "recorders/ring.py --terms 3: wanted yes, found $found"
    rm -r "$folder"
else
    echo "skipped: what recorders/ring.py writes (no python3)"
fi

# Each question has a row.
for ask in */*.ask; do
    echo "$rows" | grep -q "^${ask%.ask}$tab" || fail "$ask: no row in README.md"
done

# A copy of an example's logs, as folder d.
take() {
    rm -rf d
    cp -r "$examples/$1" d
}

# Writes the log of a node to folder d: its version, ring size, place, start kind, and its records, parted by commas.
log() {
    mkdir -p d
    {
        printf 'irlog %s\nnodes %s\nplace %s\nstart %s\n' "$1" "$2" "$3" "$4"
        echo "$5" | sed 's/, /\n/g; /^$/d'
        echo "end $(echo "$5" | sed 's/, /\n/g' | grep -c .)"
    } > "d/$3.log"
}

# Writes a text: its first line, the ring size, and the further lines, parted by commas.
text() {
    printf '%s\nnodes %s\n' "$1" "$2"
    echo "$3" | sed 's/, */\n/g'
}

# Writes a question to q.ask, a certificate to c.cert: the ring size, and its lines.
ask() {
    text 'irask 1' "$1" "$2" > q.ask
}

cert() {
    text 'ircert 1' "$1" "$2" > c.cert
}

# Runs ira, which must refuse its words, and prints why. The usage after it, where that is the one in file usage, is left out.
refused() {
    ira "$@" > printed 2> said
    [ "$?" = 2 ] && [ ! -s printed ] || echo 'not refused'
    if [ -f usage ] && tail -n "$(wc -l < usage)" said | cmp -s - usage; then
        head -n "-$(wc -l < usage)" said | sed '$d'
        echo '(the usage)'
    else
        cat said
    fi
}

# Runs ira, and prints after its output what it says on standard error, each line after `!`, and its status.
answer() {
    ira "$@" 2> said
    set -- $?
    sed 's/^/! /' said
    echo "= $1"
}

# Runs each line after `$`, and prints it, what it prints and its status; a line after `#` is printed alone.
replay() {
    ira() { "$ira" "$@" < /dev/null; }
    while read -r prompt line; do
        case $prompt in
        '#') printf '# %s\n' "$line" ;;
        '$')
            printf '$ %s\n' "$line"
            eval "$line" 2>&1
            echo "status $?"
            ;;
        esac
    done
}

examples=$PWD
for talk in from_run_to_check.txt explain.txt explain_ring.txt explain_question.txt explain_json.txt \
    show.txt show_json.txt five_nodes.txt commands.txt crashes_and_folders.txt; do
    folder=$(mktemp -d)
    [ "$(grep -c '^\$ ' "$talk")" -ge 4 ] || fail "$talk: hardly a command"
    if (cd "$folder" && replay < "$examples/$talk") | diff "$examples/$talk" -; then
        passed=$((passed + 1))
    else
        fail "$talk: other lines than expected"
    fi
    rm -r "$folder"
done

# The logs of each folder are drawn with the same line and status, where they are those of one ring, or what is left of them.
folder=$(mktemp -d)
while IFS=$tab read -r name line status; do
    [ -d "$name" ] || continue
    found=$("$ira" draw --out "$folder/drawn.svg" $(logs_of "$name") < /dev/null)
    found_status=$?
    case ${line#*: cut} in
    'no: log '* | 'no: heads: '*) [ ! -e "$folder/drawn.svg" ] || found="a picture" ;;
    *) [ "$(head -c 5 "$folder/drawn.svg")" = "<svg " ] || found="no picture" ;;
    esac
    rm -f "$folder/drawn.svg"
    compare "$found" "$found_status" "draw of $name"
done <<END
$rows
END
rm -r "$folder"

# Logs in version 2 are those of version 1 but for their first line.
folder=$(mktemp -d)
logs=$(logs_of two_node_election)
found=$("$ira" upgrade --out "$folder" $logs < /dev/null)
for log in $logs; do
    sed '1s/.*/irlog 2/' "$log" | cmp -s - "$folder/${log##*/}" || found="another ${log##*/}"
done
if [ "$found" = "upgraded 2 logs" ]; then
    passed=$((passed + 1))
else
    fail "upgrade of two_node_election: $found"
fi
rm -r "$folder"

# Mended logs are a yes.
folder=$(mktemp -d)
found=$("$ira" mend --out "$folder" $(logs_of killed_ring) < /dev/null)
if [ "$found" = "node 0: 3 of 4 events
node 1: 3 events" ] && [ "$("$ira" logs $(logs_of "$folder") < /dev/null)" = yes ]; then
    passed=$((passed + 1))
else
    fail "mend of killed_ring: $found"
fi
rm -r "$folder"

echo "examples: $passed as expected, $failed not"
[ "$passed" -ge 40 ] && [ "$failed" -eq 0 ]
