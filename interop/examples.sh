#!/bin/sh
# Runs a check program on the example cards and compares what it says.
# Usage: examples.sh PROGRAM, at the root of the repository.
set -eu

program=$1
data=crates/cardplan/data

expect() { # STATUS OUTPUT ARGUMENT...
    status=$1 output=$2
    shift 2
    echo "\$ $program $*"
    said=$("$program" "$@") && got=0 || got=$?
    echo "${said:+$said
}status $got"
    if [ "$got" -ne "$status" ] || [ "$said" != "$output" ]; then
        echo "FAIL: expected status $status and: $output"
        exit 1
    fi
}

small="$data/small.card: accepted"
pairs="$data/pairs.card: accepted"
broken="$data/broken.card: refused 7 at byte 92"

expect 0 "$small" "$data/small.card"
expect 0 "$pairs" "$data/pairs.card"
expect 1 "$broken" "$data/broken.card"
# One that is not accepted decides the status, wherever it stands.
expect 1 "$broken
$small" "$data/broken.card" "$data/small.card"
expect 1 "$small" "$data/no-such.card" "$data/small.card"
expect 2 ""
echo "$program is right about the example cards"
