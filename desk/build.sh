#!/usr/bin/env bash
# Compiles the LLVM module of the program for WebAssembly: build.sh MODULE PROGRAM
#
# The module was made for x86-64. Here it gets the data layout of wasm64, the toolchain's clang compiles it, and it is
# linked with heap.c. All else that it needs of a system has to be in imports.txt. Where wasm-opt is there, addresses of 64
# bits become such of 32, which more browsers have. No proof covers any of this.
set -euo pipefail
here=$(cd "$(dirname "$0")" && pwd)
clang=$(dirname "$(dirname "$(realpath "$(command -v "${RT:-rt}" || echo /)")")")/toolchain/bin/clang
module=$1
program=$(realpath -m "$2")
work=$(mktemp -d)
trap 'rm -rf "$work"' EXIT

fail() {
    echo "desk: $*" >&2
    exit 1
}

# Writes the module as text, for wasm64.
retarget() {
    local layout='e-m:e-p:64:64-p10:8:8-p20:8:8-i64:64-i128:128-n32:64-S128-ni:1:10:20'
    "$clang" --target=x86_64-unknown-linux-gnu -S -emit-llvm -Xclang -disable-llvm-passes -x ir "$module" \
        -o "$work/x86.ll" || fail 'the LLVM module cannot be read'
    grep -q '^target triple = "x86_64-unknown-linux-gnu"$' "$work/x86.ll" ||
        fail 'the LLVM module is for another processor than x86-64'
    ! grep -q '@llvm\.x86\.\|call .* asm ' "$work/x86.ll" || fail 'the LLVM module has intrinsics or assembly of x86-64'
    sed -e "s/^target datalayout = .*/target datalayout = \"$layout\"/" \
        -e 's/^target triple = .*/target triple = "wasm64-unknown-unknown"/' \
        -e '/^attributes /s/"\(probe-stack\|stack-probe-size\|target-cpu\|target-features\|tune-cpu\)"="[^"]*"//g' \
        "$work/x86.ll" >"$work/wasm.ll" || fail 'the LLVM module cannot be changed'
}

compile() {
    local flags=(--target=wasm64-unknown-unknown -mcpu=lime1 -O3 -ffunction-sections -fdata-sections -Werror
        --no-default-config -mllvm -expand-div-rem-bits=64 -mllvm -expand-fp-convert-bits=64
        -mllvm -trap-unreachable -mllvm -disable-machine-licm -mllvm -disable-postra-machine-licm
        -mllvm -sink-common-insts=false)
    "$clang" "${flags[@]}" -c -x ir "$work/wasm.ll" -o "$work/program.o" ||
        fail 'clang cannot compile the program for wasm64'
    "$clang" "${flags[@]}" -Wall -Wextra -Wno-unused-parameter -ffreestanding -fno-builtin -c "$here/heap.c" \
        -o "$work/heap.o" || fail 'clang cannot compile desk/heap.c'
}

link() {
    ln -s "$clang" "$work/wasm-ld"
    "$work/wasm-ld" -mwasm64 --no-entry --gc-sections --strip-all --fatal-warnings \
        -z stack-size=1048576 --stack-first --allow-undefined-file="$here/imports.txt" \
        --export=main --export=desk_take --export=desk_limit \
        -o "$work/program.wasm" "$work/program.o" "$work/heap.o" || fail 'the program cannot be linked for WebAssembly'
}

lower() {
    if command -v wasm-opt >/dev/null; then
        wasm-opt --all-features --memory64-lowering "$work/program.wasm" -o "$work/lowered.wasm" ||
            fail 'wasm-opt cannot make the addresses short'
        mv "$work/lowered.wasm" "$work/program.wasm"
    else
        echo 'desk: there is no wasm-opt (package binaryen), so the page needs a browser with 64-bit memory' >&2
    fi
}

[ -x "$clang" ] || fail "the toolchain of ${RT:-rt} has no clang"
retarget
compile
link
lower
install -D -m 644 "$work/program.wasm" "$program"
