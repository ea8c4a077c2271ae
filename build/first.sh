#!/bin/sh
# sh build/first.sh PROGRAM  judges a good and a bad election and a bad log, and compares what comes of it.
ira=$1

compare() {
    echo "$3"
    [ "$2: $3" = "$1" ] || { echo "expected: $1, as the status and the line"; exit 1; }
}

judges() {
    echo "\$ $ira logs --dir $2"
    said=$("$ira" logs --dir "$2")
    compare "$1" $? "$said"
}

judges '0: yes' examples/two_node_election
judges '1: no: link 1: receipt 1 differs' examples/receipts_exchanged
echo "\$ $ira < examples/one_bad_log/draw_out_of_range.log"
said=$("$ira" < examples/one_bad_log/draw_out_of_range.log)
compare '1: no: node 0: event 1: draw range' $? "$said"
