#!/bin/sh
# Measures a publish on a topic with one taker among many queues against one with a single queue, and what it takes to
# build all the subscriptions. Build the program first, with tools/build.sh spoolrun.
# Usage: bench/subscriptions.sh [QUEUES [SUBSCRIPTIONS [PUBLISHES]]], by default 1,000 queues of 100 and 20,000 publishes.
queues=${1:-1000}
each=${2:-100}
publishes=${3:-20000}
cd "$(dirname "$0")/.." || exit 1
room=$(mktemp -d) || exit 1
trap 'rm -rf "$room"' EXIT

# The requests that make so many queues of so many subscriptions, and then so many publishes on a topic.
requests() {
    awk -v queues="$1" -v each="$2" -v publishes="$3" -v topic="$4" 'BEGIN {
        print "@ann flow 0"
        for (i = 1; i <= queues; i++) {
            print "{\"op\":\"provision\",\"endpoint\":\"q" i "\"}"
            for (k = 1; k <= each; k++)
                print "{\"op\":\"subscribe\",\"endpoint\":\"q" i "\",\"subscription\":\"t/" i "/" k "\"}"
        }
        for (n = 1; n <= publishes; n++) print "{\"op\":\"publish\",\"topic\":\"" topic "\",\"payload\":\"hello\"}"
    }'
}

# The milliseconds of a run over such a tape.
run() {
    requests "$@" | examples/frame.sh > "$room/tape"
    began=$(date +%s%N)
    crates/spoolrun/out/spoolrun run < "$room/tape" > "$room/answers" || exit 1
    echo $((($(date +%s%N) - began) / 1000000))
}

alone=$(run 1 1 0 t/1/1) || exit 1
alone_all=$(run 1 1 "$publishes" t/1/1) || exit 1
among=$(run "$queues" "$each" 0 t/1/1) || exit 1
among_all=$(run "$queues" "$each" "$publishes" "t/$queues/$each") || exit 1
echo "$queues $each $publishes $alone $alone_all $among $among_all" | awk '{
    one = ($5 - $4) * 1000 / $3; many = ($7 - $6) * 1000 / $3
    printf "%d subscriptions of %d queues: built in %.1f s\n", $1 * $2, $1, ($6 - $4) / 1000
    printf "a publish with one queue: %.1f microseconds\n", one
    printf "a publish with one taker among %d queues: %.1f microseconds, %.1f times as much\n", $1, many, many / one
}'
