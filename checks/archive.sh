#!/bin/sh
# archive.sh: the archive for C and Rust. Builds it; compares its source with the header and the wrapper; runs
# the C examples, and the wrapper, its documentation and the header against the second program, some hundred
# thousand calls by each of five ways.
set -eu
cd -- "$(dirname -- "$0")/.."
tools/build.sh archive || exit 1
python3 checks/border.py --archive
checks/promises.sh

same() { [ "$1" = "$2" ] || { printf 'archive.sh: wrote "%s", expected "%s"\n' "$1" "$2"; exit 1; }; }
# example NAME: examples/NAME.c, with every warning an error.
example() {
    cc -std=c11 -O1 -Wall -Wextra -pedantic -Werror -Iinclude "examples/$1.c" \
        target/staticlib/libeskihrum.a -o "target/$1"
}
# told STATUS WORDS COMMAND..: what a command writes, and its status.
told() {
    want=$1 words=$2 status=0
    shift 2
    got=$("$@" 2>target/archive.err) || status=$?
    same "$got" "$words"
    same "status $status" "status $want"
}
example caller
told 0 "accepted, 2 forced in 3 passes, bound of task 1: 12" target/caller <examples/b.plan
told 2 "refused 13 place 0" target/caller 1 <examples/b.plan
told 1 "refused 14 place 1" target/caller 2 <examples/d.plan
grep -q "caller: Forcing has ended" target/archive.err || { echo "archive.sh: 14 without its words"; exit 1; }
example tasks
told 0 "as given: no
task 1: N, bound 12
task 2: N, bound 17" target/tasks
example second
told 0 "edition 1: refused 14 place 2 passes 4 rounds 0
edition 2: accepted, 0 forced in 1 passes, 3 rounds
edition 2: refused 15 place 1 passes 2 rounds 0
$(sed -n 's/^| 15 | \([^|]*\) | .*/\1/p' docs/REFUSALS.md)" target/second
example writer
told 0 "01010102FB
02000000000C000000040000000CE2
0200000000180000000900000012CB" target/writer
told 2 "refused 16 place 0" target/writer 72
told 0 "$(target/writer)" target/writer 73

example levels
told 0 "one level: bounds 6 and 6
as a plan: refused 18 place 0
two levels: bounds 2 and 6
level 33: refused 17 place 2" target/levels

# with the second program as its own tests have built it
export CARGO_TARGET_DIR="$PWD/second/target"
(cd rust && cargo test --offline --quiet -- --nocapture)
(cd rust/header && cargo test --offline --quiet -- --nocapture)
# the benchmark is not run here, but it has to follow
(cd bench && cargo check --offline --quiet)
