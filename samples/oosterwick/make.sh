#!/usr/bin/env bash
# A manuscript of three authors, made from their scripts: who wrote when without hearing of whom, and how they exchanged.
# It leaves the authors' files, `all.frames` and `manuscript.txt` in the folder. The program has to be on the PATH.
#
#     samples/oosterwick/make.sh FOLDER
set -eu
scripts=$(cd "$(dirname "$0")" && pwd)
cd "$1"

# Runs an author's next script.
edits() {
    manuscript edit "$1.ms" <"$scripts/$1-$2.script"
}

# An author takes in what another one sends.
hears() {
    manuscript send "$2.ms" | manuscript take "$1.ms"
}

manuscript new ann.ms 1 1000
manuscript new ben.ms 2 1000
manuscript new cleo.ms 3 1000

# Ann begins, and both others have her three sections.
edits ann 1
hears ben ann
hears cleo ann

# All three go on without hearing of each other. Ann and Ben cut the same half of a sentence, and each puts another one
# there; Ben and Cleo each begin a section at the end; Cleo drops the notes, in which the others are still writing.
edits ann 2
edits ben 1
edits cleo 1
hears ann ben
hears ben cleo
manuscript merge cleo.ms ann.ms
manuscript merge ann.ms cleo.ms
hears ben ann

# Ann takes one of the two halves out. There are three new sections, at three places.
edits ann 3
edits ben 2
edits cleo 2
manuscript merge ann.ms cleo.ms
manuscript merge ben.ms ann.ms
hears ann ben
hears cleo ann

# The last changes. Ben takes out a sentence, and Ann says it again in another place.
edits cleo 3
edits ben 3
edits ann 4
hears ann cleo
hears ann ben
hears ben ann
hears cleo ann

manuscript print ann.ms >manuscript.txt
manuscript send ann.ms >all.frames
