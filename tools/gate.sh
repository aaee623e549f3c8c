#!/usr/bin/env bash
# The gate: rt ci over every crate. An edit that rt could not try shows nothing, so it fails the gate too.
set -euo pipefail

log=$(mktemp)
trap 'rm -f "$log"' EXIT
"${RT:-rt}" ci 2>&1 | tee "$log"
if grep -Eq '^rt: ok.*, [1-9][0-9]* bad' "$log"; then
    echo "some must-fail edits could not be tried: see BAD above" >&2
    exit 1
fi
