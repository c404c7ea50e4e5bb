#!/usr/bin/env bash
# Installs the files of release/files.txt, or removes them and the folders that are empty then.
#
#     release/install.sh PREFIX
#     release/install.sh PREFIX remove
set -euo pipefail
cd "$(dirname "$0")/.."
prefix=${1:?a prefix}
[ $# -lt 2 ] || [ "$2" = remove ]

while read -r mode source place; do
    case $mode in '#'*) continue ;; esac
    if [ $# = 1 ]; then
        install -D -m "$mode" "$source" "$prefix/$place"
        continue
    fi
    rm -f "$prefix/$place"
    while place=${place%/*} && [ -d "$prefix/$place" ] && rmdir "$prefix/$place" 2>/dev/null; do
        [[ $place = */* ]] || break
    done
done <release/files.txt
