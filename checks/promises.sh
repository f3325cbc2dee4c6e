#!/bin/sh
# promises.sh [wrapper] [header]: the quick tests of the Rust wrapper and of the C header, in a second or two:
# document 01's cases through every function, and what a list, a count or a text at its limit gets. Built by
# rustc and cc alone, in a folder of their own. Exits with 1 where one fails.
set -u
cd -- "$(dirname -- "$0")/.." || exit 1
room=$(mktemp -d) || exit 1
trap 'rm -rf "$room"' EXIT
archives=${ESKIHRUM_LIB_DIR:-target/staticlib}
[ -f "$archives/libeskihrum.a" ] || {
    echo "promises.sh: $archives/libeskihrum.a is not there: run tools/build.sh archive" >&2
    exit 3
}

fail() { printf 'promises.sh: %s\n' "$*"; cat "$room/log"; exit 1; }
# try WHAT COMMAND..: quiet where the command succeeds.
try() { what=$1; shift; "$@" >"$room/log" 2>&1 || fail "$what"; }
rust() { rustc --edition 2021 -L "$archives" -L "$room" "$@"; }
cc_with() { "${CC:-cc}" -O1 -Wall -Wextra -Wconversion -pedantic -Werror -Iinclude "$@"; }

wrapper() {
    try "the wrapper does not build" rust --crate-type rlib --crate-name eskihrum -l static=eskihrum \
        -o "$room/libeskihrum.rlib" rust/src/lib.rs
    for tests in promises editions fewest_promises levels_promises; do
        try "its tests do not build" rust --test --extern eskihrum="$room/libeskihrum.rlib" \
            -o "$room/$tests" "rust/tests/$tests.rs"
        try "the wrapper breaks a promise" "$room/$tests" --test-threads=1
    done
}

header() {
    try "the header is no C11" cc_with -std=c11 -c -o "$room/header.o" rust/header/src/header.c
    try "the header is no C++11" cc_with -std=c++11 -x c++ -fsyntax-only rust/header/src/header.c
    try "ar" ar rcs "$room/libheader.a" "$room/header.o"
    try "the header's tests do not build" rust --crate-type rlib --crate-name eskihrum_header \
        -l static=header -l static=eskihrum -o "$room/libeskihrum_header.rlib" rust/header/src/lib.rs
    for tests in promises fewest_promises levels_promises; do
        try "the header's tests do not build" rust --test -o "$room/header" \
            --extern eskihrum_header="$room/libeskihrum_header.rlib" "rust/header/tests/$tests.rs"
        try "the header breaks a promise" "$room/header" --test-threads=1
    done
}

[ $# -gt 0 ] || set -- wrapper header
for part in "$@"; do
    case $part in
        wrapper | header) "$part" ;;
        *) echo "promises.sh: wrapper or header, and not $part" >&2; exit 3 ;;
    esac
done
printf 'promises.sh: %s: every promise is kept\n' "$*"
