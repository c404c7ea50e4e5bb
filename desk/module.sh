#!/usr/bin/env bash
# Proves and builds the program, and keeps the LLVM module that the toolchain makes of it: module.sh MODULE
#
# The toolchain cannot build a program that allocates for WebAssembly, and keeps no module. So the program is built for
# this machine as usual, and .ci/build keeps the module while the compiler has it. Where an earlier run has compiled the
# program already, and its module is gone, it is built once more by a copy of the toolchain in which clang.sh stands in
# for clang and keeps the module. Either builds bin/manuscript too.
set -euo pipefail
here=$(cd "$(dirname "$0")" && pwd)
kit=$(dirname "$(dirname "$(realpath "$(command -v "${RT:-rt}" || echo /)")")")
module=$(realpath -m "$1")
work=$(mktemp -d)
trap 'rm -rf "$work"' EXIT

fail() {
    echo "desk: $*" >&2
    exit 1
}

# Makes links in another folder to all that a folder holds, except these names.
link_all_but() {
    local from=$1 to=$2 part
    shift 2
    mkdir -p "$to"
    for part in "$from"/*; do
        case " $* " in *" ${part##*/} "*) ;; *) ln -s "$part" "$to/" ;; esac
    done
}

# Makes the copy of the toolchain, of links, with rattle.sh and clang.sh in place of rattle and clang.
make_kit() {
    link_all_but "$kit" "$work/kit" bin
    link_all_but "$kit/bin" "$work/kit/bin" rt rtlib.py rattle
    cp "$kit/bin/rt" "$kit/bin/rtlib.py" "$work/kit/bin/"
    install -m 755 "$here/rattle.sh" "$work/kit/bin/rattle"
    link_all_but "$kit/toolchain" "$work/toolchain" bin
    link_all_but "$kit/toolchain/bin" "$work/toolchain/bin" clang
    install -m 755 "$here/clang.sh" "$work/toolchain/bin/clang"
    ln -s "$kit/toolchain/bin/clang" "$work/toolchain/bin/real"
    export DESK_KIT=$kit DESK_SHADOW=$work/kit DESK_TOOLCHAIN=$work/toolchain
}

# Whether each library of the program was built here by `rt lib`. Then only what has changed is proved again.
has_libraries() {
    local crate
    for crate in "$here"/../crates/*/; do
        case $(basename "$crate") in manuscript | *_tests) continue ;; esac
        [ -f "$crate/out/rlib/stamp" ] || return 1
    done
}

build_over_libraries() {
    cd "$here/../crates/manuscript"
    rm -f out/manuscript.stamp
    echo 'Proving and building the program with the libraries that are built already.'
    "$work/kit/bin/rt" run -- bulk 1 1 >"$work/log" 2>&1 || {
        tail -n 40 "$work/log" >&2
        return 1
    }
    install -D -m 755 out/manuscript "$here/../bin/manuscript"
}

# The usual build proves nothing again that was proved here.
"$here/../.ci/build" || fail 'the program was not built'
kept=$here/../bin/manuscript.bc
if [ "$kept" -nt "$work" ]; then
    [ "$(realpath "$kept")" = "$module" ] || install -D -m 644 "$kept" "$module"
    exit 0
fi

echo 'The program was compiled before, and its LLVM module is not there: it is proved and built once more for it.'
for part in bin/rt bin/rtlib.py bin/rattle toolchain/bin/clang; do
    [ -f "$kit/$part" ] || fail "the toolchain of ${RT:-rt} has no $part, so it cannot make the module"
done
make_kit
if has_libraries; then
    build_over_libraries || fail 'the program was not built'
else
    RT=$work/kit/bin/rt "$here/../.ci/build" || fail 'the program was not built'
fi
kept=$work/toolchain/bin/module.bc
[ -s "$kept" ] || fail 'the toolchain gave clang no LLVM module of the program: it may build in another way now'
install -D -m 644 "$kept" "$module"
