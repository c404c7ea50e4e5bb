#!/usr/bin/env bash
# Writes what a shell offers behind the name of the program, from the table of the forms of the commands.
#
#     release/completions.sh bash > manuscript
#     release/completions.sh fish > manuscript.fish
set -euo pipefail
forms=$(dirname "$0")/../crates/manuscript/src/usage.rt

# The forms, a line each: the name of a command and the words behind it, without what goes to or comes from a stream.
forms() {
    sed -n 's/.*shown: "\([^"]*\)".*/\1/p' "$forms" | sed 's/ [<>].*//; s/[][]//g' | LC_ALL=C sort
}

names() {
    forms | cut -d ' ' -f 1 | tr '\n' ' ' | sed 's/ $//'
}

for_bash() {
    cat <<'HEAD'
# Completions of manuscript for bash.

_manuscript() {
    local word=${COMP_WORDS[COMP_CWORD]} words=()
    COMPREPLY=()
    if [ "$COMP_CWORD" = 1 ]; then
HEAD
    echo "        mapfile -t COMPREPLY < <(compgen -W 'help $(names)' -- \"\$word\")"
    cat <<'MIDDLE'
        return
    fi
    case ${COMP_WORDS[1]} in
MIDDLE
    forms | while read -r name words; do echo "    $name) words=($words) ;;"; done
    cat <<'TAIL'
    esac
    case ${words[COMP_CWORD - 2]-} in
    FILE | OTHER)
        compopt -o filenames 2>/dev/null
        mapfile -t COMPREPLY < <(compgen -d -- "$word"; compgen -f -X '!*.ms' -- "$word")
        ;;
    BASE)
        compopt -o filenames 2>/dev/null
        mapfile -t COMPREPLY < <(compgen -f -- "$word")
        ;;
    esac
}

complete -F _manuscript manuscript
TAIL
}

for_fish() {
    echo '# Completions of manuscript for fish.'
    echo
    echo 'complete -c manuscript -f'
    echo "complete -c manuscript -n __fish_use_subcommand -a help -d 'all commands'"
    forms | while read -r name words; do
        echo "complete -c manuscript -n __fish_use_subcommand -a $name -d '$words'"
        case " $words " in
        *' FILE '*) echo "complete -c manuscript -n '__fish_seen_subcommand_from $name' -F" ;;
        esac
    done
}

case ${1-} in
bash) for_bash ;;
fish) for_fish ;;
*)
    echo 'usage: release/completions.sh bash | fish' >&2
    exit 1
    ;;
esac
