#!/usr/bin/env bash
# Stands in for the toolchain's clang when the program is compiled: it keeps the LLVM module as module.bc in its own
# folder, and calls the real clang by the link `real` there. It is called without environment variables.
here=$(dirname "$0")
for word in "$@"; do
    case $word in *.bc) cp "$word" "$here/module.bc" ;; esac
done
exec "$(readlink "$here/real")" "$@"
