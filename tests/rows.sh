#!/usr/bin/env bash
# Runs the tables of tests/rows: commands with their words, input and files, and with what they print, note and leave,
# byte by byte. tests/common.sh says how a row is written.
. "$(dirname "$0")/common.sh"
set -f

mkdir "$work/rows"
for table in arranged bulk certificates changed comments drafts edits exchanges files moments remarks scripts show taken versions; do
    declare -A named=()
    run_rows names <tests/rows/names.txt
    run_rows "$table" <"tests/rows/$table.txt"
done

ended
