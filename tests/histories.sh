#!/usr/bin/env bash
# Random histories of three authors beside the small second program: what a file showed is printed again, what changed and who
# wrote what is told as it tells it, and a draft that was begun before others' text came leads to what it would have led to
# then.
. "$(dirname "$0")/common.sh"

if command -v python3 >/dev/null; then
    tests/histories.py "$program" "$work" 1 "${RANDOM_HISTORIES:-30}" >"$work/told"
    check "$(cat "$work/told")" grep -q '^ok' "$work/told"
else
    echo 'not tried: random histories, since there is no Python'
fi

ended
