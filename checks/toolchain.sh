#!/bin/sh
# toolchain.sh: the toolchain is the one that this work was checked with, as the file TOOLCHAIN has it.
set -eu
cd -- "$(dirname -- "$0")/.."
here=$(rt version)
if [ "$here" != "$(cat TOOLCHAIN)" ]; then
    printf 'toolchain.sh: rt version says "%s", and TOOLCHAIN has "%s"\n' "$here" "$(cat TOOLCHAIN)"
    exit 1
fi
printf 'toolchain.sh: %s\n' "$here"
