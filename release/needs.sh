#!/usr/bin/env bash
# Writes the version of the GNU C library that a program needs at least, as 2.34.
#
#     release/needs.sh PROGRAM
set -euo pipefail
grep -aoE 'GLIBC_[0-9]+(\.[0-9]+)+' "$1" | sed 's/GLIBC_//' | sort -Vu | tail -n 1
