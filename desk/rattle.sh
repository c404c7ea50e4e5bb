#!/usr/bin/env bash
# Stands in for the toolchain's rattle while the program is proved and built: it calls the real one, of the toolchain
# DESK_KIT, and replaces the paths of DESK_SHADOW by those of DESK_KIT. Only the call that compiles the program itself
# with LLVM, and none for a library or a test, gets the clang of DESK_TOOLCHAIN.
words=("${@//"$DESK_SHADOW"/"$DESK_KIT"}")
case " $* " in
*' --test '* | *' --backend rattle '*) ;;
' build '*' -o out/manuscript.o '*)
    for at in "${!words[@]}"; do
        [ "${words[at]}" != --toolchain ] || words[at + 1]=$DESK_TOOLCHAIN
    done
    ;;
esac
exec "$DESK_KIT/bin/rattle" "${words[@]}"
