#!/bin/sh
# Records elections with each recorder of examples/recorders, and judges their logs, and who says that it leads: each is to be
# `yes`. A recorder whose compiler isn't there is skipped.
#
#     sh checks/recorders.sh bin/ira

ira=$(realpath "$1") || exit 2
[ -x "$ira" ] || { echo "recorders: no program at $1"; exit 2; }
cd "$(dirname "$0")/../examples/recorders" || exit 2
made=$(mktemp -d) || exit 2
trap 'rm -rf "$made"' EXIT
failed=0

# Whether the command is there; says so where it isn't.
is_there() {
    command -v "$2" > /dev/null || { echo "skipped: the recorder in $1 (no $2)"; false; }
}

# Runs a ring of 2, 5 and 16 nodes: the words given, a number of nodes, a seed and a folder.
judge() {
    name=$1
    shift
    for nodes in 2 5 16; do
        rm -rf "$made/logs" && mkdir "$made/logs"
        "$@" "$nodes" 7 "$made/logs" || { echo "$name: the ring of $nodes failed"; failed=1; continue; }
        answer=$("$ira" logs --leads leaders --dir "$made/logs")
        [ "$answer" = yes ] || failed=1
        echo "$name: $nodes nodes: $answer"
    done
}

ring_py() {
    python3 -B ring.py --nodes "$1" --seed "$2" --out "$3"
}

two_terms() {
    python3 -B ring.py --terms 2 --nodes "$1" --seed "$2" --out "$3"
}

# Compiles a ring by the words given after its name.
compile() {
    name=$1
    shift
    "$@" || { echo "$name: not compiled"; failed=1; false; }
}

# A node that throws after its draw leaves no end line.
throws() {
    mkdir "$made/thrown" && python3 -B -c "
from recorder import Recorder
with Recorder('$made/thrown', 2, 0, True) as log:
    log.drew(1)
    raise SystemExit"
    answer=$("$ira" < "$made/thrown/0.log")
    [ "$answer" = 'no: log 0: cut' ] || failed=1
    echo "Python, a node that throws: $answer"
}

is_there Python python3 && throws
is_there Python python3 && judge Python ring_py && judge 'Python, two terms' two_terms
is_there Python python3 && judge 'Python, asyncio' python3 -B ring_asyncio.py
is_there Node node && judge Node node ring.mjs
is_there C cc && compile C cc -O1 -o "$made/ring_c" ring.c && judge C "$made/ring_c"
is_there Rust rustc && compile Rust rustc --edition 2021 -o "$made/ring_rs" ring.rs && judge Rust "$made/ring_rs"
is_there Go go && compile Go go build -o "$made/ring_go" ring.go && judge Go "$made/ring_go"
is_there Java javac && compile Java javac -d "$made" Ring.java && judge Java java -cp "$made" Ring
[ "$failed" = 0 ]
